"""What names stand for, and the types of vectors and pointers."""
import re

VECTOR = re.compile(r'(char|uchar|short|ushort|int|uint|long|ulong)(2|4|8|16)')
QUERIES = {'get_work_dim': 0, 'get_global_id': 1, 'get_local_id': 1, 'get_group_id': 1, 'get_global_size': 1,
           'get_local_size': 1, 'get_num_groups': 1, 'get_global_offset': 1}
FENCES = {'barrier', 'mem_fence', 'read_mem_fence', 'write_mem_fence'}
FLAGS = {'CLK_LOCAL_MEM_FENCE', 'CLK_GLOBAL_MEM_FENCE'}


class VectorType:
    """A type of so many components of an element type."""

    def __init__(self, element, count):
        self.element, self.count = element, count

    def __eq__(self, other):
        return isinstance(other, VectorType) and (self.element, self.count) == (other.element, other.count)

    def __hash__(self):
        return hash((self.element, self.count))


def vector_type(word):
    """The vector type of this name, or None."""
    found = VECTOR.fullmatch(word)
    return VectorType(found.group(1), int(found.group(2))) if found else None


class Pointer:
    """A pointer, or with `lengths` an array of rows: the lengths behind the first index.

    `components` is how many components an element has, and 0 where it is a number."""

    __slots__ = ('space', 'element', 'is_const', 'root', 'lengths', 'components')

    def __init__(self, space, element, is_const, root, lengths=(), components=0):
        self.space, self.element, self.is_const, self.root = space, element, is_const, root
        self.lengths, self.components = tuple(lengths), components

    def row(self):
        """What an index leads to: the next row, or an element."""
        if self.lengths:
            return Pointer(self.space, self.element, self.is_const, self.root, self.lengths[1:])
        return self.element

    def stride(self):
        """How many numbers one step of the index passes."""
        count = self.components or 1
        for length in self.lengths:
            count *= length
        return count


def is_pointer(found):
    """Whether a type is that of a pointer or of an array of one dimension."""
    return isinstance(found, Pointer) and not found.lengths


def is_rows(found):
    """Whether a type is that of an array of several dimensions."""
    return isinstance(found, Pointer) and bool(found.lengths)


class Symbol:
    """A variable, a parameter or an array.

    `kind` is scalar, pointer, array, vector, or object for a number in local or constant memory."""

    def __init__(self, kind, text, node, is_const, **fields):
        self.kind, self.text, self.node, self.is_const = kind, text, node, is_const
        self.type = self.slot = self.root = self.function = None
        self.is_parameter = False
        # What the rules of varying learn: how many conditions are around the declaration, whether an exit under a
        # varying condition stands behind it, whether it is assigned, and whether it varies.
        self.depth = 0
        self.has_exit = self.is_assigned = self.varies = False
        self.__dict__.update(fields)


class Function:
    """A function: its definition, or the first of its prototypes where `node` is None."""

    def __init__(self, text, node, is_kernel, result, is_void):
        self.text, self.node, self.is_kernel, self.result, self.is_void = text, node, is_kernel, result, is_void
        self.is_called = self.result_varies = self.has_result_types = False
        self.sizes = None
        self.variables, self.arrays, self.locals, self.parameters, self.parameter_types = [], [], [], [], []
        # Slot 0 of a frame is the item, slot 1 the value that is returned.
        self.slots = 2

    def new_slot(self):
        """One more place in a frame."""
        self.slots += 1
        return self.slots - 1
