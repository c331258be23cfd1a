"""How structures stand in arrays of numbers, and places in memory as an array and a number of its elements."""
from . import types
from .notes import Refused
from .types import Array, Scalar, Vector


class Cells:
    """An array of numbers that holds a type. `size` is the number of bytes of each where the bytes are those of memory;
    0 says that each number of the type has an element of its own, whatever its size."""

    def __init__(self, name, size):
        self.name, self.size = name, size

    def count(self, kind):
        """How many elements a type takes."""
        return types.size_of(kind) // self.size if self.size else len(list(types.leaves(kind)))

    def before(self, struct, offset):
        """How many elements stand before the field of a structure with that offset."""
        if self.size:
            return offset // self.size
        return sum(len(list(types.leaves(kind))) for _, kind, at in struct.fields if at < offset)

    def step(self, kind):
        """From one component of a vector to the next."""
        return types.SIZES[kind.base] // self.size if self.size else 1


def cells_of(kind, space):
    """The elements that hold a type in a space, or None where `wgcc` has the type itself."""
    while isinstance(kind, Array):
        kind = kind.of
    if isinstance(kind, Scalar):
        return Cells(kind.name, types.SIZES[kind.name])
    if isinstance(kind, Vector):
        if space == 'constant':
            return Cells(kind.base, types.SIZES[kind.base])
        return Cells(types.spelled(kind), types.size_of(kind))
    if not isinstance(kind, types.Struct):
        return None
    names = [leaf.name for leaf, _ in types.leaves(kind)]
    sizes = {types.SIZES[name] for name in names}
    if len(sizes) == 1:
        return Cells(names[0] if names[0] != 'bool' else 'uchar', sizes.pop())
    if space == 'private' and not kind.has_union():
        return Cells('ulong' if 'ulong' in names or 'uint' in names and 8 not in sizes else
                     'long' if 8 in sizes else 'int', 0)
    size = min(sizes)
    if any(at % size for _, at in types.leaves(kind)) or types.size_of(kind) % size:
        size = 1
    return Cells(types.BY_SIZE[size], size)


class Index:
    """A number of elements: a constant and texts with their factors."""

    def __init__(self, number=0, terms=()):
        self.number, self.terms = number, tuple(terms)

    def plus(self, other):
        """The sum of two."""
        return Index(self.number + other.number, self.terms + other.terms)

    def times(self, factor):
        """The product with a constant."""
        return Index(self.number * factor, [(text, own * factor) for text, own in self.terms])

    def shifted(self, number):
        """So many elements further on."""
        return Index(self.number + number, self.terms)

    def text(self):
        """The number as an expression: a single text as it stands, sums in 64 bits."""
        if not self.terms:
            return [str(self.number)] if self.number >= 0 else ['(%d)' % self.number]
        if len(self.terms) == 1 and self.number == 0 and self.terms[0][1] == 1:
            return self.terms[0][0]
        found = []
        for text, factor in self.terms:
            if found:
                found.append(' + ')
            found.append(['%dL * ' % factor if factor >= 0 else '(%dL) * ' % factor, '(', text, ')'] if factor != 1
                         else ['(long)(', text, ')'])
        if self.number:
            found.append(' + %d' % self.number if self.number > 0 else ' - %d' % -self.number)
        return found

    def is_zero(self):
        """Whether it is the constant 0."""
        return not self.terms and self.number == 0


class Address:
    """A place in memory: the names of the arrays among which `which` chooses, the number of the element, the elements
    that the arrays have, and the type of what stands there."""

    def __init__(self, bases, which, index, cells, kind, space):
        self.bases, self.which, self.index = bases, which, index
        self.cells, self.kind, self.space = cells, kind, space

    def at(self, index, kind):
        """The place so many elements further on, of a type."""
        return Address(self.bases, self.which, self.index.plus(index), self.cells, kind, self.space)

    def element(self, base, shift=0):
        """The element of one array."""
        return [base, '[', self.index.shifted(shift).text(), ']']

    def chosen(self, give):
        """The text that `give` makes for each array, of which one is chosen."""
        if self.which is None:
            return give(self.bases[0])
        found = give(self.bases[-1])
        for number in range(len(self.bases) - 2, -1, -1):
            found = ['(', self.which, ' == %d ? ' % number, give(self.bases[number]), ' : ', found, ')']
        return found

    def pointer(self, token):
        """The place as a value."""
        if self.which is not None:
            raise Refused(token, 'one of several pointers as a value', 'buffers_that_change_places')
        if self.index.is_zero():
            return self.bases[0]
        return [self.bases[0], ' + ', self.index.text()] if len(self.index.terms) + bool(self.index.number) == 1 \
            and self.index.number >= 0 and all(own == 1 for _, own in self.index.terms) and not self.index.number \
            else [self.bases[0], ' + (', self.index.text(), ')']
