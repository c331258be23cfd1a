"""The nodes of a syntax tree, and the words that the grammar knows."""

SPACE_WORDS = {'__global': 'global', 'global': 'global', '__local': 'local', 'local': 'local',
               '__constant': 'constant', 'constant': 'constant', '__private': 'private', 'private': 'private'}
HEAD_WORDS = {'__kernel', 'kernel', 'inline', 'static'}
STATEMENT_WORDS = {'if', 'else', 'while', 'do', 'for', 'switch', 'case', 'default', 'break', 'continue', 'return'}
BASE_WORDS = {'bool', 'uchar', 'ushort', 'uint', 'ulong', 'size_t', 'char', 'short', 'int', 'long', 'signed',
              'unsigned'}
OUTSIDE_WORDS = set('float double half ptrdiff_t intptr_t uintptr_t event_t sampler_t image1d_t image1d_buffer_t '
                    'image1d_array_t image2d_t image2d_array_t image3d_t'.split())
VECTOR_WORDS = {base + count for count in ['2', '3', '4', '8', '16']
                for base in ['char', 'uchar', 'short', 'ushort', 'int', 'uint', 'long', 'ulong',
                             'float', 'double', 'half']}
NO_NAMES = (set(SPACE_WORDS) | HEAD_WORDS | STATEMENT_WORDS | BASE_WORDS | OUTSIDE_WORDS | VECTOR_WORDS |
            {'__attribute__', 'reqd_work_group_size', 'work_group_size_hint', 'void', 'const', 'volatile',
             'restrict', '__restrict', 'sizeof', 'true', 'false', 'struct', 'union', 'enum', 'typedef', 'goto'})
TYPE_WORDS = set(SPACE_WORDS) | BASE_WORDS | OUTSIDE_WORDS | VECTOR_WORDS | {'const', 'volatile'}
ASSIGNMENT_MARKS = {'=', '+=', '-=', '*=', '/=', '%=', '&=', '|=', '^=', '<<=', '>>='}
# How close each operator with two operands binds.
LEVELS = {'||': 1, '&&': 2, '|': 3, '^': 4, '&': 5, '==': 6, '!=': 6, '<': 7, '>': 7, '<=': 7, '>=': 7,
          '<<': 8, '>>': 8, '+': 9, '-': 9, '*': 10, '/': 10, '%': 10}
LOOPS = ('while', 'do', 'for')


class Node:
    """A node: its form, the numbers of its first and last token, its parts, and what the later steps learn of it."""

    def __init__(self, form, first, parts, **fields):
        self.form, self.first, self.last, self.parts = form, first, first, parts
        self.height = 1
        self.mark = None
        # Whether an expression is a vector or a pointer to vectors, as the first walk over a unit with vectors finds.
        self.kind_of_vector = None
        # From the checker: the type of the value, the type in which an operator computes, what a name stands for,
        # the scalar that a selection of one component is, and the number that is added to such an element's place.
        self.value_type = self.computed_in = self.symbol = self.alias = None
        self.plus = 0
        self.is_vector_statement = False
        # From the interpreter: whether a barrier or an access to shared memory is in it, whether it is walked step by
        # step, and the functions made of it.
        self.has_barrier = self.has_access = self.is_stepped = False
        self.closure = self.address_closure = None
        # From the rules of what varies: whether the test of a loop varies.
        self.test_varies = False
        self.__dict__.update(fields)


def bare(node):
    """A node without its parentheses; for a selection of one component the scalar that it is."""
    while True:
        if node.form == 'paren':
            node = node.part
        elif node.alias is not None:
            node = node.alias
        else:
            return node


def all_nodes(top):
    """All nodes of a tree, in no certain order."""
    stack = [top]
    while stack:
        node = stack.pop()
        yield node
        stack.extend(node.parts)
