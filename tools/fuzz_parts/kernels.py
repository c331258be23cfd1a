"""Random kernels that are clean most of the time, with their launch files and buffers."""
import random

from reference_parts.numbers import SIZE, largest, least

from .expressions import TYPES, Expressions
from .launch_texts import Launches, packed
from .statements import Statements

TURNS = 100000
# What some kernels have: a buffer in constant memory, local memory that the launch gives, arrays of rows, names with
# replacements, and a launch file with two launches.
EXTRAS = ('constant', 'local', 'rows', 'defines', 'twice')
VALUES = [0, 1, 2, 3, 5, -1, 100]
LINEAR = '{0}(0) + {1}(0) * ({0}(1) + {1}(1) * {0}(2))'


class Helper:
    """A function of the source: its name, how many numbers it takes, and whether it holds barriers."""

    def __init__(self, name, count, has_barrier):
        self.name, self.count, self.has_barrier = name, count, has_barrier


class Generator(Expressions, Statements):
    """Makes a kernel from a seed."""

    def __init__(self, seed):
        self.random = random.Random(seed)
        self.named = self.loops = 0
        self.sizes()
        self.extras = {name for name in EXTRAS if self.chance(.3)}
        self.types = {name: self.pick(TYPES) for name in ('in', 'out', 'sh', 't', 'con', 'loc')}
        if self.chance(.7):
            self.types['out'] = self.pick(['uint', 'ulong', 'int', 'long'])
        self.functions = []
        self.enter(False, [], False, True, '-')

    def sizes(self):
        """Chooses the dimensions of the launch."""
        dimensions = self.pick([1, 1, 1, 1, 2, 3])
        if dimensions == 1:
            self.part, self.counts = [self.pick([1, 2, 3, 4, 5, 7, 8, 9, 16, 17, 20])], [self.random.randint(1, 3)]
        elif dimensions == 2:
            self.part = [self.pick([1, 2, 3, 4]), self.pick([1, 2, 3])]
            self.counts = [self.random.randint(1, 2), self.random.randint(1, 2)]
        else:
            self.part = [self.pick([1, 2, 3]), self.pick([1, 2]), self.pick([1, 2])]
            self.counts = [1, 2, self.random.randint(1, 2)]
        self.offset = [self.pick([0, 0, 3]) for _ in self.part]
        self.count_items()

    def count_items(self):
        """Notes how many items a group has, and how many the launch."""
        self.items = self.groups = 1
        for size, count in zip(self.part, self.counts):
            self.items, self.groups = self.items * size, self.groups * count

    def enter(self, in_kernel, variables, may_return, gives_value, phase):
        """Begins a function."""
        self.in_kernel, self.variables, self.phase = in_kernel, variables, phase
        self.uniform, self.uniform_own, self.arrays, self.loops = [], [], [], 0
        self.may_return, self.gives_value = may_return, gives_value

    # Functions

    def helper(self):
        """A function without a barrier."""
        name, kinds = self.new_name('f'), [self.pick(TYPES) for _ in range(self.random.randint(1, 3))]
        self.enter(False, ['a%d' % at for at in range(len(kinds))], True, True, '-')
        taken = ', '.join('%s a%d' % (kind, at) for at, kind in enumerate(kinds))
        lines = ['%s %s(%s) {' % (self.pick(TYPES), name, taken)]
        for _ in range(self.random.randint(1, 3)):
            lines += self.helper_statement(2, 1)
        if self.chance(.9):
            lines.append('  return %s;' % self.uniform_in_function(2))
        self.functions.append(Helper(name, len(kinds), False))
        return lines + ['}']

    def helper_statement(self, depth, indent):
        """A statement of a function without a barrier."""
        front, kind, one = '  ' * indent, self.random.random(), self.uniform_in_function
        if kind < .3 or depth == 0:
            return [front + '%s %s= %s;' % (self.pick(self.variables), self.pick(['', '+', '^']), one(2))]
        if kind < .6:
            lines = [front + 'if (%s) {' % one(2)] + self.helper_statement(depth - 1, indent + 1) + [front + '}']
            return lines + ([front + 'else return %s;' % one(1)] if self.chance(.4) else [])
        if kind < .9:
            name = self.new_name('c')
            lines = [front + 'for (int %s = 0; %s < ((%s) & 3); %s++) {' % (name, name, one(1), name)]
            lines += self.helper_statement(depth - 1, indent + 1)
            if self.chance(.4):
                lines.append(front + '  if (%s) return %s;' % (one(1), one(1)))
            elif self.chance(.4):
                lines.append(front + '  if (%s) %s;' % (one(1), self.pick(['break', 'continue'])))
            return lines + [front + '}']
        return [front + '%s %s = %s;' % (self.pick(TYPES), self.new_name('x'), one(2))]

    def helper_with_barriers(self):
        """A function with barriers, over local memory."""
        name, kinds = self.new_name('f'), [self.pick(TYPES) for _ in range(self.random.randint(1, 3))]
        self.enter(False, ['a%d' % at for at in range(len(kinds))], False, True, '-')
        taken = ', '.join('%s a%d' % (kind, at) for at, kind in enumerate(kinds))
        one = self.uniform_in_function
        lines = ['%s %s(__local %s *t, int l, %s) {' % (self.pick(TYPES), name, self.types['t'], taken),
                 '  barrier(CLK_LOCAL_MEM_FENCE);', '  t[l] = %s;' % one(2), '  barrier(CLK_LOCAL_MEM_FENCE);',
                 '  %s x = t[(uint)(%s) %% %du];' % (self.pick(TYPES), one(2), self.items)]
        if self.chance(.5):
            lines += ['  for (int k = 0; k < %d; k++) {' % self.random.randint(0, 3),
                      '    barrier(CLK_LOCAL_MEM_FENCE);', '    t[l] += x + k;', '    barrier(CLK_LOCAL_MEM_FENCE);',
                      '    x ^= t[(uint)(l + k) %% %du];' % self.items, '  }']
        self.functions.append(Helper(name, len(kinds), True))
        return lines + ['  barrier(CLK_LOCAL_MEM_FENCE);', '  return x;', '}']

    # The kernel

    def kernel(self):
        """The kernel."""
        self.enter(True, [], False, False, 'write')
        further = self.extra_parameters() + self.more_parameters()
        values = (self.types['in'], self.types['out'], self.types['sh'], further)
        lines = ['__kernel void k(__global const %s *in, __global %s *out, __global %s *shared, int n%s) {' % values,
                 '  __local %s t[%d];' % (self.types['t'], self.items),
                 '  int l = %s;' % LINEAR.format('get_local_id', 'get_local_size'),
                 '  int gr = %s;' % LINEAR.format('get_group_id', 'get_num_groups'),
                 '  int g = gr * %d + l;' % self.items,
                 '  __global %s *sh = shared + gr * %d;' % (self.types['sh'], self.items)] + self.more_head()
        for _ in range(self.random.randint(5, 12)):
            lines += self.group_statement(2, 1)
        if self.chance(.3):
            lines += ['  barrier(CLK_LOCAL_MEM_FENCE | CLK_GLOBAL_MEM_FENCE);']
            self.phase, self.may_return = 'read', True
            lines += ['  if (%s) return;' % self.expression(2)] + self.block(2, 1)
        seen = ['(ulong)%s * %du' % (name, 2 * at + 3) for at, name in enumerate(self.variables + self.uniform)]
        seen += [self.element(name, at) for at, name in enumerate(self.arrays)]
        if seen:
            lines += ['  out[g] += %s;' % ' + '.join(seen)]
        return lines + self.more_end() + ['}']

    def data(self, name, count):
        """The bytes of so many random values of a type."""
        if self.chance(.7):
            return packed(name, [self.random.randint(least(name), largest(name)) for _ in range(count)])
        return packed(name, [self.random.randint(0, 9) for _ in range(count)])

    def source(self):
        """The lines of the source."""
        values = ', '.join(str(self.random.randint(0, 127)) for _ in range(8))
        lines = ['__constant %s tab[8] = {%s};' % (self.pick(TYPES), values)]
        if 'defines' in self.extras:
            lines = ['#define SOME %d' % self.random.randint(0, 300), '#ifndef GIVEN', '#define GIVEN (SOME - 1)',
                     '#endif'] + lines
        for _ in range(self.random.randint(0, 2)):
            lines += self.helper()
        for _ in range(self.random.randint(0, 2)):
            lines += self.helper_with_barriers()
        return lines + self.more_helpers() + self.kernel()

    def extra_parameters(self):
        """The parameters for constant memory and for local memory that the launch gives."""
        text = ', __constant %s *con' % self.types['con'] if 'constant' in self.extras else ''
        return text + (', __local %s *loc' % self.types['loc'] if 'local' in self.extras else '')

    def extra_arguments(self):
        """Their arguments."""
        found = [('buffer', 'con')] if 'constant' in self.extras else []
        return found + ([('local', self.items * SIZE[self.types['loc']])] if 'local' in self.extras else [])

    def make(self):
        """The files: the source `k.cl`, the launch file `k.toml` and the buffers."""
        source, total = '\n'.join(self.source()) + '\n', self.items * self.groups
        counts = {'in': 32, 'out': total, 'sh': total}
        if 'constant' in self.extras:
            counts['con'] = 8
        data = {name: self.data(self.types[name], count) for name, count in counts.items()}
        more = self.more_data(total)
        arguments = [('buffer', 'in'), ('buffer', 'out'), ('buffer', 'sh'), ('value', None), *self.extra_arguments(),
                     *(('buffer', name) for name in more)]
        data.update(more)
        sizes = [size * count for size, count in zip(self.part, self.counts)], self.part, self.offset
        values = [self.pick(VALUES) for _ in range(2 if 'twice' in self.extras else 1)]
        defines = [('GIVEN', self.random.randint(0, 99))] if 'defines' in self.extras and self.chance(.5) else []
        buffers = [(name, len(each)) for name, each in data.items()]
        text = Launches(sizes, buffers, arguments, values, defines, TURNS).text()
        files = {'k.cl': source.encode(), 'k.toml': text.encode()}
        files.update((name + '.bin', each) for name, each in data.items())
        return files

    # What kernels with vectors add

    def more_helpers(self):
        """Further functions."""
        return []

    def more_parameters(self):
        """Further parameters of the kernel."""
        return ''

    def more_head(self):
        """Further lines at the kernel's start."""
        return []

    def more_end(self):
        """Further lines at the kernel's end."""
        return []

    def more_data(self, _):
        """Further buffers."""
        return {}
