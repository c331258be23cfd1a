"""How each variable of the source stands in the text for `wgcc`."""
from . import types
from .cells import Cells, cells_of
from .notes import Refused
from .pointers import bases_of, is_plain, own_type
from .types import Array, Other, Pointer, Struct, Vector, element

PLAIN, CELLS, MOVING, EVENT = 'plain', 'cells', 'moving', 'event'


def dimensions(kind):
    """How many dimensions an array has."""
    return 1 + dimensions(kind.of) if isinstance(kind, Array) else 0


def decide(symbol, notes, names):
    """Gives a variable its form and, where it stands in an array of numbers, its elements."""
    kind = symbol.type
    symbol.cells = None
    if isinstance(element(kind), Other):
        symbol.form = EVENT
    elif isinstance(kind, Pointer):
        symbol.moving_names = names.like(symbol.name + '_of'), names.like(symbol.name + '_at')
        decide_pointer(symbol, kind, notes)
    else:
        decide_object(symbol, kind, notes)


def look_at_casts(casts):
    """An object that is also looked at as smaller numbers stands in an array of these."""
    for node in casts:
        if any(not types.is_number(leaf) for leaf, _ in types.leaves(node.type.to)):
            continue
        unit = min(types.SIZES[leaf.name] for leaf, _ in types.leaves(node.type.to))
        for base in bases_of(node.operand):
            if base.kind == 'variable':
                own = own_type(base)
                if all(types.is_number(leaf) for leaf, _ in types.leaves(own)) and unit < elements_of(base)[1]:
                    base.unit = min(unit, base.unit or unit)


def look_at_arguments(calls):
    """An object and the parameter that leads to it have the same elements: where they would not, the smallest numbers
    of both. What one call asks for may change what another one has, so this goes on until nothing changes."""
    pairs = [(base, parameter) for _, called, node in calls if called.node is not None
             for argument, parameter in zip(node.arguments, called.node.parameters)
             if isinstance(parameter.type, Pointer) and isinstance(argument.type, (Pointer, Array))
             for base in bases_of(argument) if base.kind == 'variable']
    is_done = False
    while not is_done:
        is_done = True
        for base, parameter in pairs:
            if elements_of(base) != elements_of(parameter):
                unit = min(smallest(base), smallest(parameter))
                is_done = is_done and base.unit == parameter.unit == unit
                base.unit = parameter.unit = unit


def smallest(symbol):
    """The bytes of the smallest number of what a variable holds or leads to."""
    own = min(types.SIZES.get(leaf.name, 1) for leaf, _ in types.leaves(own_type(symbol)))
    return min(own, symbol.unit or own)


def elements_of(symbol):
    """The name and size of the elements that a variable, or what it leads to, stands in."""
    if symbol.unit is not None:
        return types.BY_SIZE[symbol.unit], symbol.unit
    cells = cells_of(own_type(symbol), symbol.type.space if isinstance(symbol.type, Pointer) else symbol.space)
    return (cells.name, cells.size) if cells is not None else None


def share_cells(symbol, notes):
    """A pointer variable has the elements of the objects to which it leads."""
    found = {}
    for base in symbol.bases:
        if base.kind == 'variable':
            cells = base.cells or Cells(types.spelled(element(own_type(base))), types.size_of(element(own_type(base))))
            found[cells.name, cells.size] = cells
    if len(found) > 1:
        raise Refused(symbol.token, 'a pointer to objects of several types')
    for cells in found.values():
        if cells.name != symbol.cells.name or cells.size != symbol.cells.size:
            symbol.cells = cells
            symbol.form = symbol.form if symbol.form == MOVING else CELLS
            notes.add('a pointer cast: elements are put together', symbol.token)


def decide_pointer(symbol, kind, notes):
    """The form of a pointer."""
    if symbol.is_addressed:
        raise Refused(symbol.token, 'the address of a pointer')
    symbol.cells = cells_of(kind.to, kind.space)
    if symbol.cells is None:
        raise Refused(symbol.token, 'a pointer to what is no number')
    if symbol.unit is not None:
        symbol.cells = Cells(types.BY_SIZE[symbol.unit], symbol.unit)
    is_own = is_plain(kind.to) and symbol.cells.name == types.spelled(kind.to)
    symbol.form = MOVING if symbol.is_moving else PLAIN if is_own else CELLS
    if symbol.is_moving:
        notes.add('a pointer that is compared, or leads to several objects, is a number of elements', symbol.token)


def decide_object(symbol, kind, notes):
    """The form of a variable that is no pointer."""
    inner, depth = element(kind), dimensions(kind)
    is_vector = isinstance(inner, Vector)
    needs_cells = isinstance(inner, Struct) or depth > 3 or is_vector and depth > 1 \
        or is_vector and symbol.space == 'constant' or is_vector and depth == 0 and symbol.space == 'local' \
        or symbol.is_addressed and depth == 0 or symbol.unit is not None
    symbol.form = CELLS if needs_cells else PLAIN
    if not needs_cells:
        return
    symbol.cells = cells_of(kind, symbol.space) if symbol.unit is None \
        else Cells(types.BY_SIZE[symbol.unit], symbol.unit)
    if symbol.cells is None:
        raise Refused(symbol.token, 'a variable that is no number')
    if isinstance(inner, Struct):
        notes.add('a structure is an array of numbers', symbol.token)
    elif symbol.is_addressed and depth == 0:
        notes.add('a variable whose address is taken is an array of one', symbol.token)
    else:
        notes.add('an array of vectors, or of more than three dimensions, is one of one dimension', symbol.token)
