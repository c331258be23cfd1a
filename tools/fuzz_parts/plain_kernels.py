"""Random kernels that OpenCL defines wholly: nothing in them is a choice of this project.

Unsigned arithmetic alone, divisors that are not 0, shifts by less than the width (OpenCL masks the amount, as here),
built-in functions on one type, no effects inside expressions, everything initialised, both fences at each barrier, and
each expression cast to a known type."""
import re

from reference_parts.numbers import BITS

from . import expressions, kernels, statements, vector_statements
from .kernels import Generator
from .vector_statements import VectorStatements

PLAIN_TYPES = ['uint', 'ulong']
BOTH = 'barrier(CLK_LOCAL_MEM_FENCE | CLK_GLOBAL_MEM_FENCE);'
VALUES = [0, 1, 2, 3, 5, 7, 31, 33, 100, 255, 256, 65535, 65536, 2147483647, 2147483648, 4294967295]
OF_TWO = ['abs_diff', 'min', 'max', 'add_sat', 'sub_sat', 'hadd', 'rhadd', 'mul_hi']
UNSIGNED = ['uchar', 'ushort', 'uint', 'ulong']


class PlainGenerator(Generator):
    """Makes such a kernel from a seed."""

    def __init__(self, seed):
        super().__init__(seed)
        self.extras = set()
        self.types = {name: self.pick(PLAIN_TYPES if name == 't' else UNSIGNED) for name in self.types}

    def sizes(self):
        """Chooses the dimensions of the launch, without an offset."""
        if self.chance(.3):
            self.part, self.counts = [self.pick([2, 3, 4]), self.pick([1, 2, 3])], [1, 2]
        else:
            self.part, self.counts = [self.pick([1, 2, 3, 4, 5, 7, 8, 9, 16, 17, 20])], [self.random.randint(1, 3)]
        self.offset = [0] * len(self.part)
        self.count_items()

    def literal(self):
        """A number of type uint."""
        return '%du' % self.pick(VALUES + [self.random.randint(0, 2**32 - 1)])

    def cast(self, text):
        """An expression as an unsigned type."""
        return '(%s)(%s)' % (self.pick(['uint', 'uint', 'ulong']), text)

    def of_known_type(self, text):
        """A component, cast."""
        return self.cast(text)

    def leaf(self, is_uniform):
        """A number or variable, cast."""
        return self.cast(super().leaf(is_uniform))

    def load(self, depth, is_uniform, has_effects):
        """An element, cast."""
        return self.cast(super().load(depth, is_uniform, False))

    def expression(self, depth, is_uniform=False, has_effects=False):
        """An expression without effects."""
        if depth <= 0 or self.chance(.12):
            return self.leaf(is_uniform)

        def inner():
            return self.expression(depth - 1, is_uniform)
        kind = self.random.random()
        if kind < .45:
            mark, left, right = self.pick(expressions.OPERATORS), inner(), inner()
            return self.cast('%s %s %s' % (left, mark, '(%s | 1u)' % right if mark in '/%' else right))
        if kind < .52:
            return self.cast('%s(%s)' % (self.pick(['-', '~', '!']), inner()))
        if kind < .60:
            return self.cast('(%s)(%s)' % (self.pick(UNSIGNED + ['bool']), inner()))
        if kind < .72:
            return self.cast(self.plain_built_in(inner))
        if kind < .80:
            return '((%s) ? %s : %s)' % (inner(), inner(), inner())
        if kind < .86:
            return self.cast('%s %s %s' % (inner(), self.pick(['&&', '||']), inner()))
        functions = [each for each in self.functions if not each.has_barrier]
        if kind < .93 and functions and not is_uniform:
            return self.cast(self.call(self.pick(functions), depth))
        return self.load(depth - 1, is_uniform, False)

    def plain_built_in(self, inner):
        """A built-in function, whose arguments have one type."""
        name = self.pick(UNSIGNED)
        if self.chance(.3):
            return '%s((%s)(%s))' % (self.pick(['clz', 'popcount']), name, inner())
        if self.chance(.2):
            return 'rotate((%s)(%s), (%s)(%s & %d))' % (name, inner(), name, inner(), BITS[name] - 1)
        return '%s((%s)(%s), (%s)(%s))' % (self.pick(OF_TWO), name, inner(), name, inner())

    def simple(self):
        """An assignment."""
        marks, kind = ['', '+', '^', '-', '|'], self.random.random()
        if self.in_kernel and kind < .45:
            target = self.pick(['t[l]', 'sh[l]']) if self.phase == 'write' and self.chance(.6) else 'out[g]'
            return '%s %s= %s' % (target, self.pick(marks), self.expression(3))
        if self.arrays and kind < .55:
            return '%s[(%s) & 3] %s= %s' % (self.pick(self.arrays), self.expression(1), self.pick(['', '+', '^']),
                                           self.expression(2))
        if self.variables:
            return '%s %s= %s' % (self.pick(self.variables), self.pick(marks), self.expression(3))
        return '%s += %s' % ('out[g]' if self.in_kernel else 'a0', self.expression(2))

    def helper(self):
        """A function without a barrier, which returns something in any case."""
        lines = super().helper()
        if not lines[-2].strip().startswith('return'):
            lines.insert(-1, '  return a0;')
        return lines

    def make(self):
        """The files of the kernel."""
        modules = (expressions, kernels, statements, vector_statements)
        kept = expressions.TYPES
        for module in modules:
            module.TYPES = PLAIN_TYPES
        try:
            files = super().make()
        finally:
            for module in modules:
                module.TYPES = kept
        return {**files, 'k.cl': initialised(files['k.cl'].decode(), self.items).encode()}


def initialised(text, items):
    """A source in which everything is initialised, and each barrier has both fences."""
    text = re.sub(r'barrier\([^;]*\);', BOTH, text)
    text = re.sub(r'(\w+ p\d+\[4\]);', r'\1 = {1, 2, 3, 4};', text)
    text = re.sub(r'((?:uint|ulong|bool) v\d+);', r'\1 = 0;', text)
    text = text.replace('bool v', 'uint v')
    head = '  int g = gr * %d + l;\n' % items
    return text.replace(head, head + '  t[l] = 5;\n  %s\n' % BOTH)


class PlainVectorGenerator(VectorStatements, PlainGenerator):
    """Makes such a kernel with vectors from a seed."""

    is_plain = True

    def __init__(self, seed):
        PlainGenerator.__init__(self, seed)
        self.start_vectors()
