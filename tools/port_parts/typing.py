"""Which type an expression has (OpenCL C 1.2, chapter 6, cut down to whole numbers)."""
from . import types
from .notes import Refused
from .tree import stripped
from .types import Array, Other, Pointer, Scalar, Vector

COMPARISONS = ('==', '!=', '<', '>', '<=', '>=')
LETTERS = 'xyzw'


def decayed(kind):
    """The type of a value: an array stands for the pointer to its first element."""
    return Pointer(kind.of, None, False) if isinstance(kind, Array) else kind


def pointed(node):
    """The pointer type of an expression that leads somewhere, with its space, or None."""
    kind = node.type
    if isinstance(kind, Array):
        return Pointer(kind.of, space_of(node), False)
    return kind if isinstance(kind, Pointer) else None


def space_of(node):
    """The space in which an object stands."""
    node = stripped(node)
    if node.kind == 'name':
        return node.symbol.space if not isinstance(node.symbol.type, Pointer) else node.symbol.type.space
    if node.kind == 'index':
        return pointed(node.base).space if pointed(node.base) else space_of(node.base)
    if node.kind == 'member':
        return pointed(node.base).space if node.is_arrow else space_of(node.base)
    if node.kind == 'unary' and node.op.text == '*':
        return pointed(node.operand).space
    return 'private'


def vector_of(left, right, op):
    """The vector type in which an operator of which one side is a vector is computed."""
    if isinstance(left, Vector) and isinstance(right, Vector):
        if left != right and not (op in ('<<', '>>') and left.count == right.count):
            return None
        return left
    return left if isinstance(left, Vector) else right


def signed_vector(kind):
    """The vector of truth values of a comparison."""
    return Vector(types.SIGNED.get(kind.base, kind.base), kind.count)


def binary_type(node):
    """The type of an operator with two operands."""
    op, left, right = node.op.text, decayed(node.left.type), decayed(node.right.type)
    if isinstance(left, Pointer) or isinstance(right, Pointer):
        if op in COMPARISONS or op in ('&&', '||'):
            return types.INT
        if op == '-' and isinstance(left, Pointer) and isinstance(right, Pointer):
            return types.LONG
        return pointed(node.left) or pointed(node.right)
    if isinstance(left, Other) or isinstance(right, Other):
        return types.INT if op in COMPARISONS or op in ('&&', '||') else left if isinstance(left, Other) else right
    if isinstance(left, Vector) or isinstance(right, Vector):
        kind = vector_of(left, right, op)
        if kind is None:
            raise Refused(node.op, 'vectors of two types beside %s' % op)
        return signed_vector(kind) if op in COMPARISONS or op in ('&&', '||') else kind
    if not (types.is_number(left) and types.is_number(right)):
        raise Refused(node.op, 'the operands of %s' % op)
    if op in COMPARISONS or op in ('&&', '||'):
        return types.INT
    return types.promoted(left) if op in ('<<', '>>') else types.common(left, right)


def unary_type(node):
    """The type of an operator with one operand."""
    op, kind = node.op.text, decayed(node.operand.type)
    if op == '*':
        if not isinstance(kind, Pointer):
            raise Refused(node.op, '* of what is no pointer')
        return kind.to
    if op == '&':
        return Pointer(node.operand.type, space_of(node.operand), False)
    if op == '!':
        return signed_vector(kind) if isinstance(kind, Vector) else types.INT
    if op in ('++', '--') or isinstance(kind, (Vector, Other)):
        return node.operand.type
    if not types.is_number(kind):
        raise Refused(node.op, 'the operand of %s' % op)
    return types.promoted(kind)


def choose_type(node):
    """The type of `?:`."""
    yes, no = decayed(node.yes.type), decayed(node.no.type)
    if isinstance(yes, Pointer) or isinstance(no, Pointer):
        return pointed(node.yes) or pointed(node.no)
    if isinstance(yes, Vector) or isinstance(no, Vector):
        return yes if isinstance(yes, Vector) else no
    if isinstance(node.test.type, Vector):
        raise Refused(node.token, 'numbers chosen by a vector')
    if isinstance(yes, (Other, types.Struct, types.Void)):
        return yes
    if isinstance(no, (Other, types.Struct, types.Void)):
        return no
    return types.common(yes, no)


def components(name, count):
    """The numbers of the components that a selection names, or None."""
    if name in ('lo', 'hi', 'even', 'odd'):
        half = types.stored(count) // 2
        start, step = {'lo': (0, 1), 'hi': (half, 1), 'even': (0, 2), 'odd': (1, 2)}[name]
        return [start + step * number for number in range(half)]
    if name[:1] in ('s', 'S') and len(name) > 1 and all(digit in '0123456789abcdefABCDEF' for digit in name[1:]):
        found = [int(digit, 16) for digit in name[1:]]
    elif all(letter in LETTERS for letter in name):
        found = [LETTERS.index(letter) for letter in name]
    else:
        return None
    return found if all(number < count for number in found) else None


def member_type(node):
    """The type of a selection or of a field; the node gets `chosen` or `offset`."""
    kind = node.base.type
    if node.is_arrow:
        found = pointed(node.base)
        kind = found.to if found else None
    if isinstance(kind, Vector):
        node.chosen = components(node.name.text, kind.count)
        if node.chosen is None:
            raise Refused(node.name, 'no component %s' % node.name)
        return Scalar(kind.base) if len(node.chosen) == 1 else Vector(kind.base, len(node.chosen))
    field = kind.field(node.name.text) if isinstance(kind, types.Struct) else None
    if field is None:
        raise Refused(node.name, 'no field %s' % node.name)
    node.chosen, node.offset = None, field[1]
    return field[0]


def index_type(node):
    """The type of an element."""
    found = pointed(node.base)
    if found is None:
        raise Refused(node.token, 'an index into what is no array')
    return found.to
