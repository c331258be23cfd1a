"""E501 to E503: where a vector stands and may not, and which components and types do not fit.

They come before E401 to E424, and are the same for each kernel. Two walks are made: the first says of each node whether
it is a vector, a pointer to vectors or anything else; the second knows the role of each node, which says whether a
vector may stand there, and notes the faults, parts before the whole."""
from .check_vectors import numbers_of_selection
from .numbers import BUILT_IN, COMPARISONS, SIGNED_OF, UNSIGNED_OF
from .symbols import FENCES, FLAGS, VectorType, vector_type
from .tree import Node, all_nodes

VALUE, VARIABLE, ELEMENT = 'value', 'variable', 'element'
# Roles in which a vector may stand; TARGET and BASE take one that is a variable or stands in memory.
USED, LISTED, ITEMS, TARGET, BASE = 'used', 'listed', 'items', 'target', 'base'
# Roles in which none may: FREE anywhere else, WHOLE as a statement, HEAD in the head of a `for`, BARRED as what a
# variable there starts with, OUTER at the outer level; TYPED takes a vector type.
FREE, WHOLE, HEAD, BARRED, OUTER, TYPED = 'free', 'whole', 'head', 'barred', 'outer', 'typed'


class Kind:
    """What an expression is: a vector with what it is kept in, or where `reach` is None a pointer to vectors.

    UNKNOWN has no vector."""

    def __init__(self, vector, reach):
        self.vector, self.reach = vector, reach

    def is_place(self):
        """Whether it is a vector that may be assigned to."""
        return self.reach in (VARIABLE, ELEMENT)


class Declared:
    """The role of a declarator: where the declaration stands, its vector type and its space."""

    def __init__(self, around, vector, space):
        self.around, self.vector, self.space = around, vector, space


# The kind of a name that is not visible, and of what may be a vector or not by such a name.
UNKNOWN = Kind(None, None)


def is_vector(kind):
    """Whether a kind is that of a vector."""
    return kind is not None and kind.reach is not None


def is_pointer(kind):
    """Whether a kind is that of a pointer to vectors."""
    return kind is not None and kind.vector is not None and kind.reach is None


def other(*kinds):
    """The kind of what is no vector and no pointer to vectors, from those of its parts."""
    return UNKNOWN if UNKNOWN in kinds else None


def vector_of(node):
    """The vector type that a type node names, or None."""
    return vector_type(node.base[1:]) if node.form == 'type' and node.base.startswith('!') else None


def is_variable(node):
    """Whether a declarator has neither a star nor brackets."""
    return node.star is None and not node.lengths


def has_vectors(unit):
    """Whether a type of the unit names a vector, or something is selected."""
    return any(vector_of(node) is not None or (node.form == 'postfix' and node.mark == '.')
               for node in all_nodes(unit))


class Kinds:
    """The first walk: the kind of each node. `names` says what the visible names stand for."""

    def visit(self, node, names):
        """Notes the kinds of a node and of its parts."""
        inside = dict(names) if node.parts else names
        if node.form == 'call' and node.parts and node.text in FENCES:
            inside.update(dict.fromkeys(FLAGS))
        for at, part in enumerate(node.parts):
            self.visit(part, inside)
            self.pass_on(node, at, part, inside)
        reads = {'variable': lambda: names.get(node.text, UNKNOWN), 'paren': lambda: node.part.kind_of_vector,
                 'unary': lambda: self.unary(node), 'postfix': lambda: self.postfix(node),
                 'call': lambda: self.call(node), 'binary': lambda: self.binary(node),
                 'cast': lambda: self.cast(node), 'comma': lambda: self.pointer_alone(node.parts[1]),
                 'assignment': lambda: self.pointer_alone(node.parts[0])}
        node.kind_of_vector = reads[node.form]() if node.form in reads else None

    def pass_on(self, node, at, part, names):
        """What is visible behind a part."""
        if node.form == 'declare':
            if at > 0:
                self.declare(node.spelled, part, names)
        elif part.form == 'declare':
            for each in part.declarators:
                self.declare(part.spelled, each, names)
        elif part.form == 'params':
            for each in part.parts:
                vector = vector_of(each.spelled)
                names[each.text] = Kind(vector, None) if vector is not None and each.star is not None else None
        elif part.form == 'function':
            names[part.text] = UNKNOWN

    def declare(self, spelled, node, names):
        """A name is declared."""
        vector = vector_of(spelled)
        if vector is not None:
            names[node.text] = Kind(vector, VARIABLE if is_variable(node) else None)
        elif not spelled.base.startswith('!'):
            names[node.text] = None

    def pointer_alone(self, node):
        """A pointer is what a comma or an assignment gives; a vector is not."""
        return node.kind_of_vector if is_pointer(node.kind_of_vector) else other(node.kind_of_vector)

    def element(self, node):
        """What a pointer leads to."""
        kind = node.kind_of_vector
        return Kind(kind.vector, ELEMENT) if is_pointer(kind) else other(kind)

    def value(self, kind):
        """The value of a vector."""
        return Kind(kind.vector, VALUE) if is_vector(kind) else other(kind)

    def unary(self, node):
        """An operator in front."""
        if node.mark == 'sizeof' or node.mark == '!':
            return None
        if node.mark == '*':
            return self.element(node.part)
        kind = node.part.kind_of_vector
        if node.mark == '&':
            return Kind(kind.vector, None) if is_vector(kind) and kind.reach == ELEMENT else other(kind)
        return self.pointer_alone(node.part) if node.mark in ('++', '--') else self.value(kind)

    def postfix(self, node):
        """An index, a selection, or a step."""
        if node.mark == '[]':
            return self.element(node.base)
        if node.mark != '.':
            return self.pointer_alone(node.part)
        kind = node.part.kind_of_vector
        chosen = numbers_of_selection(node.selection, kind.vector.count) if is_vector(kind) else None
        if chosen is None or len(chosen) == 1:
            return None
        return Kind(VectorType(kind.vector.element, len(chosen)), kind.reach)

    def call(self, node):
        """A call of a built-in function with a vector among its arguments."""
        found = next((each.kind_of_vector for each in node.arguments if is_vector(each.kind_of_vector)), None)
        if found is None or node.text not in BUILT_IN:
            return None
        vector = found.vector
        if node.text in ('abs', 'abs_diff'):
            vector = VectorType(UNSIGNED_OF[vector.element], vector.count)
        return Kind(vector, VALUE)

    def cast(self, node):
        """A cast to a vector type."""
        vector = vector_of(node.spelled)
        return None if vector is None else Kind(vector, VALUE)

    def binary(self, node):
        """An operator with two operands."""
        if node.mark in ('&&', '||'):
            return None
        left, right = [part.kind_of_vector for part in node.parts]
        found = left if is_vector(left) else right
        if is_vector(found):
            if node.mark in COMPARISONS:
                return Kind(VectorType(SIGNED_OF[found.vector.element], found.vector.count), VALUE)
            return Kind(found.vector, VALUE)
        if is_pointer(left) and not is_pointer(right) and node.mark in ('+', '-'):
            return left
        return right if is_pointer(right) and not is_pointer(left) and node.mark == '+' else other(left, right)


def is_list_cast(node):
    """Whether a cast is a vector type in front of a list in parentheses."""
    return vector_of(node.spelled) is not None and node.part.form == 'paren'


def sets_vector(role, node):
    """Whether an assignment in this role is a statement that sets a vector."""
    return role == WHOLE and is_vector(node.parts[0].kind_of_vector)


def is_element(node):
    """Whether a node is an element, parentheses aside, and no selection of one."""
    if node.form == 'paren':
        return is_element(node.part)
    if node.form == 'postfix' and node.mark == '.':
        return False
    return bool(node.parts) and is_vector(node.kind_of_vector) and node.kind_of_vector.reach == ELEMENT


def role_of(role, node, part):
    """The role of a part of a node that has a role."""
    is_front, is_back = part is node.parts[0], part is node.parts[-1]
    used = USED if is_vector(node.kind_of_vector) else FREE
    if node.form == 'declare':
        around = HEAD if role == HEAD else OUTER if role == OUTER else 'block'
        return TYPED if is_front else Declared(around, vector_of(node.spelled), node.spelled.space)
    if node.form == 'declarator':
        return initial_role(role, node) if is_back and node.initialiser is not None else FREE
    if node.form == 'paren':
        return paren_role(role, node.kind_of_vector)
    if node.form == 'postfix':
        return FREE if node.mark != '.' else USED if is_vector(node.kind_of_vector) else BASE
    if node.form == 'unary':
        if node.mark == '&':
            return USED if is_element(part) else FREE
        return used if node.mark in ('+', '-', '~', '!') else FREE
    if node.form == 'cast':
        return FREE if not is_list_cast(node) else TYPED if is_front else LISTED
    if node.form == 'comma':
        return FREE if role != ITEMS else ITEMS if is_front else USED
    if node.form == 'assignment':
        return FREE if not sets_vector(role, node) else TARGET if is_front else USED
    plain = {'unit': OUTER, 'for': HEAD if is_front else FREE, 'simple': FREE if role == HEAD else WHOLE,
             'param': TYPED if is_front and not is_back else FREE}
    return plain.get(node.form, used)


def paren_role(role, kind):
    """The role of what stands in parentheses."""
    if role == LISTED:
        return ITEMS
    if role == TARGET:
        return TARGET if is_vector(kind) and kind.is_place() else USED
    return USED if is_vector(kind) else FREE


def initial_role(role, node):
    """The role of the initialiser of a declarator."""
    if not isinstance(role, Declared) or role.vector is None or not is_variable(node):
        return FREE
    return {OUTER: FREE, HEAD: BARRED}.get(role.around, USED)


def is_misplaced(role, node):
    """Whether E501 stands at a node."""
    if node.form == 'type':
        return vector_of(node) is not None and role != TYPED
    if node.form == 'declarator':
        return isinstance(role, Declared) and role.vector is not None and not is_placed(role, node)
    if node.form == 'list':
        return role in (USED, BARRED)
    kind = node.kind_of_vector
    if role in (USED, LISTED, ITEMS) or not is_vector(kind):
        return False
    return role not in (TARGET, BASE) or not kind.is_place()


def is_placed(role, node):
    """Whether a declarator behind a vector type stands where one may."""
    if node.star is not None:
        return False
    if not node.lengths:
        return role.around != OUTER and role.space in (None, 'private')
    return len(node.lengths) == 1 and node.initialiser is None


def components_of(node):
    """The numbers of the components of a variable or element that a place stands for."""
    if node.form == 'paren':
        return components_of(node.part)
    count = node.kind_of_vector.vector.count if is_vector(node.kind_of_vector) else 0
    if node.form != 'postfix' or node.mark != '.':
        return list(range(count))
    inner, kind = components_of(node.part), node.part.kind_of_vector
    chosen = numbers_of_selection(node.selection, kind.vector.count) if is_vector(kind) else None
    return inner if chosen is None else [inner[number] for number in chosen]


def lacks_component(role, node):
    """Whether E502 stands at a node."""
    if node.form != 'postfix' or node.mark != '.':
        return False
    kind = node.part.kind_of_vector
    if not is_vector(kind) or numbers_of_selection(node.selection, kind.vector.count) is None:
        return True
    found = components_of(node)
    return role == TARGET and len(set(found)) != len(found)


def agree(left, right):
    """Whether the second kind is a vector of the type of the first, as far as it is known what it is."""
    return is_vector(left) and (right is UNKNOWN or is_vector(right) and left.vector == right.vector)


def is_unfitting(left, right):
    """Whether two kinds are vectors of different types."""
    return is_vector(left) and is_vector(right) and left.vector != right.vector


def do_types_differ(role, node):
    """Whether E503 stands at a node."""
    if node.form == 'assignment':
        left, right = [part.kind_of_vector for part in node.parts]
        differ = not agree(left, right) if node.mark == '=' else is_unfitting(left, right)
        return sets_vector(role, node) and differ
    if node.form == 'cast':
        return is_list_cast(node) and not is_filled(vector_of(node.spelled), node.part.part)
    if node.form == 'call':
        first = next((each for each in node.arguments if is_vector(each.kind_of_vector)), None)
        return is_vector(node.kind_of_vector) and not all(
            agree(first.kind_of_vector, each.kind_of_vector) for each in node.arguments)
    if node.form == 'declarator':
        if not isinstance(role, Declared) or role.vector is None or not is_variable(node) or node.initialiser is None:
            return False
        kind = node.initialiser.kind_of_vector
        is_told = role.around == HEAD and not is_vector(kind)
        return node.initialiser.form != 'list' and (is_told or not agree(Kind(role.vector, VALUE), kind))
    if node.form == 'binary' and node.mark not in ('&&', '||'):
        return is_unfitting(*[part.kind_of_vector for part in node.parts])
    return False


def given(vector, node):
    """How many components an item of a list gives; None where its components have another type."""
    kind = node.kind_of_vector
    if not is_vector(kind):
        return 1
    return kind.vector.count if kind.vector.element == vector.element else None


def is_filled(vector, node):
    """Whether a list fills a vector. One number alone fills all components."""
    counts = []
    while node.form == 'comma':
        counts.append(given(vector, node.parts[1]))
        node = node.parts[0]
    counts.append(given(vector, node))
    return None not in counts and sum(counts) in (vector.count, 1)


def faults_of(role, node):
    """The faults of a node and of its parts, in order: each the node and the number."""
    for part in node.parts:
        yield from faults_of(role_of(role, node, part), part)
    if is_misplaced(role, node):
        yield node, 501
    elif lacks_component(role, node):
        yield node, 502
    elif do_types_differ(role, node):
        yield node, 503


def first_fault(unit: Node):
    """The first fault of a unit, a node and a number, or None."""
    if not has_vectors(unit):
        return None
    Kinds().visit(unit, {})
    return next(faults_of(FREE, unit), None)
