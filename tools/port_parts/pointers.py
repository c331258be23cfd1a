"""To which objects pointer variables lead. A pointer that may lead to several, or that is compared with another,
becomes a number of elements and, where there are several, the number of the object."""
from . import types
from .constants import constant
from .notes import Refused
from .tree import parts_of, stripped
from .types import Array, Pointer


def bases_of(node, seen=()):
    """The symbols of the objects to which an expression of pointers may lead; those of pointer variables are in turn
    what they are set to."""
    node = stripped(node)
    if node.kind == 'name':
        return bases_of_symbol(node.symbol, seen)
    if node.kind in ('binary', 'comma'):
        found = set()
        for side in (node.left, node.right) if node.kind == 'binary' else (node.right,):
            if isinstance(side.type, (Pointer, Array)):
                found |= bases_of(side, seen)
        return found
    if node.kind in ('cast', 'postfix'):
        return bases_of(node.operand, seen) if isinstance(node.operand.type, (Pointer, Array)) else set()
    if node.kind == 'unary':
        return bases_of(node.operand, seen)
    if node.kind == 'choose':
        return bases_of(node.yes, seen) | bases_of(node.no, seen)
    if node.kind in ('index', 'member'):
        return bases_of(node.base, seen)
    if node.kind == 'assign':
        return bases_of(node.left, seen)
    if node.kind == 'string':
        return {node}
    return set()


def bases_of_symbol(symbol, seen=()):
    """The objects to which a variable may lead; one that is no pointer is an object itself."""
    if not isinstance(symbol.type, Pointer):
        return {symbol}
    found = {symbol} if symbol.is_parameter else set()
    if symbol not in seen:
        for source in symbol.sources:
            found |= bases_of(source, (*seen, symbol))
    return found


def is_null(node):
    """Whether an expression is the number 0, with which a pointer may be compared."""
    found = constant(node) if not isinstance(node.type, Pointer) else None
    inner = stripped(node)
    if inner.kind == 'cast' and isinstance(inner.type, Pointer):
        return is_null(inner.operand)
    return found is not None and found[0] == 0


def order(symbol):
    """Objects come in the order of the source."""
    token = symbol.token
    return (token.file or '', token.line, token.column)


def look_at(symbols):
    """Says of each pointer variable whether it is moving, and gives it its objects."""
    for symbol in symbols:
        if symbol.kind != 'variable' or not isinstance(symbol.type, Pointer):
            continue
        symbol.sources = [source for source in symbol.sources if not is_null(source)]
        found = sorted(bases_of_symbol(symbol), key=order)
        if any(base.kind == 'string' for base in found) and len(found) > 1:
            raise Refused(symbol.token, 'a pointer to several texts')
        symbol.bases = found
        symbol.is_moving = len(found) > 1 or symbol.is_compared and (
            symbol.is_assigned or not is_only_parameter(symbol))
    spread([symbol for symbol in symbols if symbol.kind == 'variable' and isinstance(symbol.type, Pointer)])


def spread(variables):
    """What a moving pointer is set to is moving too, and so is a parameter that is moved and to whose object it
    leads."""
    is_done = False
    while not is_done:
        is_done = True
        for symbol in [each for each in variables if each.is_moving]:
            found = set(symbol.bases)
            for source in symbol.sources:
                found |= set(variables_in(source))
            for other in found:
                if other.kind == 'variable' and isinstance(other.type, Pointer) and not other.is_moving \
                        and (other.is_assigned or not other.is_parameter):
                    other.is_moving, is_done = True, False


def variables_in(node):
    """The pointer variables from whose values an expression of pointers is made."""
    node = stripped(node)
    if node.kind == 'name':
        return [node.symbol] if isinstance(node.symbol.type, Pointer) else []
    found = []
    for part in parts_of(node):
        if isinstance(part.type, (Pointer, Array)):
            found += variables_in(part)
    return found


def is_only_parameter(symbol):
    """Whether a pointer is a parameter that is never set to another object."""
    return symbol.is_parameter and set(symbol.bases) == {symbol}


def names_of_moving(symbol):
    """The names of the two numbers that a moving pointer is."""
    return symbol.moving_names


def own_type(symbol):
    """The type to which a pointer leads, or that a variable has."""
    return symbol.type.to if isinstance(symbol.type, Pointer) else symbol.type


def is_plain(kind):
    """Whether `wgcc` has pointers to the type, and elements of it."""
    return isinstance(kind, (types.Scalar, types.Vector))
