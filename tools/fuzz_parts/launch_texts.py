"""The bytes of buffers, and the texts of launch files."""
import struct

LETTERS = {'char': 'b', 'uchar': 'B', 'short': 'h', 'ushort': 'H', 'int': 'i', 'uint': 'I', 'long': 'q', 'ulong': 'Q'}


def packed(name, values):
    """The bytes of values of a type."""
    return struct.pack('<%d%s' % (len(values), LETTERS[name]), *values)


class Launches:
    """What a launch file says: the global sizes, the local sizes and the offset; the buffers, each a name and its
    bytes; the arguments, each a kind and a value; the values that the scalar argument has, one for each launch; the
    numbers that are given for names; and the turns."""

    def __init__(self, sizes, buffers, arguments, values, defines, turns):
        self.sizes, self.buffers, self.arguments = sizes, buffers, arguments
        self.values, self.defines, self.turns = values, defines, turns

    def text(self):
        """The text of the file, of the least format that has what it says."""
        whole, part, offset = self.sizes
        lines = ['turns = %d' % self.turns] + self.defines_lines() + self.buffer_lines()
        if len(self.values) > 1:
            for value in self.values:
                lines += ['[[launch]]', 'kernel = "k"', *self.size_lines(), 'arg = [%s]' % ', '.join(
                    '{ %s }' % self.argument(kind, each, value) for kind, each in self.arguments)]
            return '\n'.join(['format = 3'] + lines) + '\n'
        is_flat = len(whole) == 1 and offset == [0]
        sizes = ['global = %d' % whole[0], 'local = %d' % part[0]] if is_flat else self.size_lines()
        lines = ['format = %d' % (1 if is_flat else 2), 'kernel = "k"'] + sizes + lines
        for kind, each in self.arguments:
            lines += ['[[arg]]', self.argument(kind, each, self.values[0])]
        return '\n'.join(lines) + '\n'

    def size_lines(self):
        """The sizes, for formats from 2 on."""
        return ['%s = %s' % each for each in zip(('global', 'local', 'offset'), self.sizes)]

    def defines_lines(self):
        """The numbers that are given for names."""
        return ['defines = { %s }' % ', '.join('%s = %d' % each for each in self.defines)] if self.defines else []

    def buffer_lines(self):
        """The buffers."""
        lines = []
        for name, count in self.buffers:
            lines += ['[[buffer]]', 'name = "%s"' % name, 'bytes = %d' % count, 'load = "%s.bin"' % name,
                      'save = "%s.out"' % name]
        return lines

    def argument(self, kind, each, value):
        """An argument as a key and a value."""
        if kind == 'buffer':
            return 'buffer = "%s"' % each
        return 'value = %d' % value if kind == 'value' else 'local = %d' % each
