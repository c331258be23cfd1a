"""Types: their sizes, and which type an expression has."""
from collections import namedtuple

Scalar = namedtuple('Scalar', 'name')
Vector = namedtuple('Vector', 'base count')
Pointer = namedtuple('Pointer', 'to space is_const')
Array = namedtuple('Array', 'of length')
Void = namedtuple('Void', '')
Other = namedtuple('Other', 'name')
Function = namedtuple('Function', 'result parameters names')

SIZES = {'bool': 1, 'char': 1, 'uchar': 1, 'short': 2, 'ushort': 2, 'int': 4, 'uint': 4, 'long': 8, 'ulong': 8}
UNSIGNED = {'char': 'uchar', 'short': 'ushort', 'int': 'uint', 'long': 'ulong'}
SIGNED = {there: here for here, there in UNSIGNED.items()}
BY_SIZE = {1: 'uchar', 2: 'ushort', 4: 'uint', 8: 'ulong'}
# Names of one word for these types.
ALIASES = {'size_t': 'ulong', 'ptrdiff_t': 'long', 'intptr_t': 'long', 'uintptr_t': 'ulong', 'int8_t': 'char',
           'uint8_t': 'uchar', 'int16_t': 'short', 'uint16_t': 'ushort', 'int32_t': 'int', 'uint32_t': 'uint',
           'int64_t': 'long', 'uint64_t': 'ulong', '_Bool': 'bool'}
OTHERS = ('float', 'double', 'half', 'event_t', 'sampler_t', 'image1d_t', 'image1d_buffer_t', 'image1d_array_t',
          'image2d_t', 'image2d_array_t', 'image3d_t', 'cl_mem_fence_flags')
COUNTS = (2, 3, 4, 8, 16)
INT, UINT, LONG, ULONG, BOOL = (Scalar(name) for name in ('int', 'uint', 'long', 'ulong', 'bool'))
VOID = Void()


class Struct:
    """A structure or a union: its name, and its fields as (name, type, offset in bytes) once they are known."""

    def __init__(self, tag, is_union=False):
        self.tag, self.is_union, self.fields, self.size, self.align = tag, is_union, None, 0, 1

    def lay_out(self, fields, is_packed):
        """Gives each field its place."""
        self.fields, at, end = [], 0, 0
        for name, kind in fields:
            align = 1 if is_packed else align_of(kind)
            at = 0 if self.is_union else -(-at // align) * align
            self.fields.append((name, kind, at))
            at, self.align = at + size_of(kind), max(self.align, align)
            end = max(end, at)
        self.size = -(-end // self.align) * self.align

    def has_union(self):
        """Whether it is a union, or has one in it."""
        inner = [element(kind) for _, kind, _ in self.fields or []]
        return self.is_union or any(isinstance(kind, Struct) and kind.has_union() for kind in inner)

    def field(self, name):
        """The type and the offset of a field, or None."""
        return next(((kind, at) for own, kind, at in self.fields or [] if own == name), None)


def named_type(word):
    """The type that a word names, or None."""
    word = ALIASES.get(word, word)
    if word in SIZES:
        return Scalar(word)
    if word in OTHERS:
        return Other(word)
    base = word.rstrip('0123456789')
    count = word[len(base):]
    if count.isdigit() and int(count) in COUNTS and str(int(count)) == count:
        if base in SIZES and base != 'bool':
            return Vector(base, int(count))
        if base in ('float', 'double', 'half'):
            return Other(word)
    return None


def size_of(kind):
    """The bytes of a type, or None where it has no size here."""
    if isinstance(kind, Scalar):
        return SIZES[kind.name]
    if isinstance(kind, Vector):
        return SIZES[kind.base] * stored(kind.count)
    if isinstance(kind, Array):
        own = size_of(kind.of)
        return None if kind.length is None or own is None else own * kind.length
    if isinstance(kind, Struct):
        return kind.size if kind.fields is not None else None
    if isinstance(kind, Pointer):
        return 8
    return None


def align_of(kind):
    """The alignment of a type."""
    if isinstance(kind, Array):
        return align_of(kind.of)
    return kind.align if isinstance(kind, Struct) else size_of(kind)


def stored(count):
    """How many components a vector takes in memory."""
    return 4 if count == 3 else count


def element(kind):
    """The type of the elements of an array of any dimensions."""
    while isinstance(kind, Array):
        kind = kind.of
    return kind


def is_number(kind):
    """Whether values of the type are numbers."""
    return isinstance(kind, Scalar)


def is_signed(name):
    """Whether the numbers of a type have a sign."""
    return name in UNSIGNED


def promoted(kind):
    """The type that a number is computed in."""
    return INT if SIZES[kind.name] < 4 else kind


def common(left, right):
    """The common type of two numbers."""
    left, right = promoted(left), promoted(right)
    if left == right:
        return left
    by_rank = sorted((left, right), key=lambda kind: (SIZES[kind.name], not is_signed(kind.name)))
    return by_rank[1]


def leaves(kind, at=0):
    """The numbers of a type as (type, offset in bytes), in the order of memory."""
    if isinstance(kind, Scalar):
        yield kind, at
    elif isinstance(kind, Vector):
        for number in range(kind.count):
            yield Scalar(kind.base), at + number * SIZES[kind.base]
    elif isinstance(kind, Array):
        for number in range(kind.length):
            yield from leaves(kind.of, at + number * size_of(kind.of))
    elif isinstance(kind, Struct):
        for _, own, offset in kind.fields:
            yield from leaves(own, at + offset)
    else:
        yield kind, at


def spelled(kind):
    """The name of a type of numbers or vectors."""
    if isinstance(kind, Vector):
        return '%s%d' % (kind.base, stored(kind.count))
    return kind.name
