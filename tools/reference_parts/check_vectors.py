"""The part of the checker for short vectors: what is a vector, and which components a selection names.

Units in which E501, E502 or E503 stands do not come here."""
import re

from .numbers import BUILT_IN, COMPARISONS, SIGNED_OF, UNSIGNED_OF, is_number
from .symbols import Pointer, VectorType, vector_type
from .tree import Node, bare

LETTERS = 'xyzw'


def numbers_of_selection(selection, count):
    """The numbers of the components that a selection names, of so many; or None."""
    halves = {'lo': range(count // 2), 'hi': range(count // 2, count), 'even': range(0, count, 2),
              'odd': range(1, count, 2)}
    if selection in halves:
        found = list(halves[selection])
    elif re.fullmatch('[xyzw]+', selection) and count in (2, 4):
        found = [LETTERS.index(letter) for letter in selection]
    elif re.fullmatch('s[0-9a-fA-F]+', selection):
        found = [int(digit, 16) for digit in selection[1:]]
    else:
        return None
    if any(number >= count for number in found) or len(found) not in (1, 2, 4, 8, 16):
        return None
    return found


def chosen_of(node):
    """Of the target of a vector statement the variable or element, and the numbers of its chosen components."""
    inner, chosen = bare(node), None
    while inner.form == 'postfix' and inner.mark == '.':
        chosen = inner.chosen if chosen is None else [inner.chosen[number] for number in chosen]
        inner = bare(inner.part)
    return inner, list(range(node.value_type.count)) if chosen is None else chosen


class Vectors:
    """Checks vectors."""

    def is_vector(self, node):
        """Whether an expression is a vector."""
        return node.kind_of_vector is not None and node.kind_of_vector.reach is not None

    def chosen(self, node, found):
        """The numbers of the components that a selection of a vector of this type names."""
        return numbers_of_selection(node.selection, found.count)

    def vector_type_of(self, node):
        """Checks a vector, or a number in its place; the type, or None where it or a part of it is at fault."""
        if self.is_vector(node):
            found = getattr(self, 'check_vector_' + node.form)(node)
        else:
            found = self.type_of(node)
            if found is not None and not is_number(found):
                found = self.wrong(node, 403)
        node.value_type = found
        return found

    def vector_types_of(self, nodes):
        """The types of several vectors or numbers, or None where one is at fault."""
        found = [self.vector_type_of(node) for node in nodes]
        return None if None in found else found

    def check_vector_paren(self, node):
        """Checks a vector in parentheses."""
        return self.vector_type_of(node.part)

    def check_vector_variable(self, node):
        """Checks a variable of a vector type."""
        node.symbol = self.lookup(node.text + '.')
        return node.symbol.type

    def check_vector_postfix(self, node):
        """Checks an element that is a vector, or a selection of several components."""
        if node.mark == '[]':
            found = self.types_of([node.base, node.index])
            if found is None:
                return None
            if not is_number(found[1]):
                return self.wrong(node, 403)
            return VectorType(found[0].element, found[0].components)
        found = self.vector_type_of(node.part)
        if found is None:
            return None
        node.chosen = self.chosen(node, found)
        return VectorType(found.element, len(node.chosen))

    def check_vector_unary(self, node):
        """Checks an element behind a star, or an operator in front of a vector."""
        if node.mark != '*':
            return self.vector_type_of(node.part)
        found = self.type_of(node.part)
        return None if found is None else VectorType(found.element, found.components)

    def check_vector_cast(self, node):
        """Checks a list of components."""
        items, inner = [], node.part.part
        while inner.form == 'comma':
            items.append(inner.parts[1])
            inner = inner.parts[0]
        node.items = [inner] + items[::-1]
        return None if self.vector_types_of(node.items) is None else vector_type(node.spelled.base[1:])

    def check_vector_call(self, node):
        """Checks a built-in function on vectors."""
        types = self.vector_types_of(node.arguments)
        if types is None:
            return None
        node.kind, node.computed_in = 'built-in', types[0].element
        if len(types) != BUILT_IN[node.text]:
            return self.wrong(node, 404)
        if node.text in ('abs', 'abs_diff'):
            return VectorType(UNSIGNED_OF[types[0].element], types[0].count)
        return types[0]

    def check_vector_binary(self, node):
        """Checks an operator with a vector on one side at least."""
        types = self.vector_types_of(node.parts)
        if types is None:
            return None
        found = types[0] if isinstance(types[0], VectorType) else types[1]
        node.computed_in = found.element
        return VectorType(SIGNED_OF[found.element], found.count) if node.mark in COMPARISONS else found

    def vector_statement(self, node):
        """Checks an assignment to a vector that is a whole statement; whether it was one."""
        if node.form != 'assignment' or not self.is_vector(node.parts[0]):
            return False
        node.is_vector_statement = True
        if self.vector_types_of(node.parts) is None:
            return True
        inner = bare(node.parts[0])
        while inner.form == 'postfix' and inner.mark == '.':
            inner = bare(inner.part)
        space, is_const = None, False
        if inner.form == 'variable':
            is_const = inner.symbol.is_const
        else:
            pointer = (inner.base if inner.form == 'postfix' else inner.part).value_type
            space, is_const = pointer.space, pointer.is_const
        if space == 'constant':
            self.fault(node, 407)
        elif is_const:
            self.fault(node, 406)
        return True

    def check_address_of_vector(self, node):
        """Checks the address of an element that is a vector."""
        if self.vector_type_of(node.part) is None:
            return None
        base = bare(node.part)
        base = (base.base if base.form == 'postfix' else base.part).value_type
        return Pointer(base.space, base.element, base.is_const, base.root, (), base.components)

    def check_component(self, node):
        """Checks a selection of one component; leaves the scalar that it is."""
        found = self.vector_type_of(node.part)
        if found is None:
            return None
        number, inner = self.chosen(node, found)[0], bare(node.part)
        while inner.form == 'postfix' and inner.mark == '.':
            number = inner.chosen[number]
            inner = bare(inner.part)
        if inner.form == 'variable':
            fields = dict(text=node.selection, symbol=inner.symbol.components[number])
            node.alias = Node('variable', node.first, [], **fields)
        elif inner.form == 'postfix':
            fields = dict(mark='[]', base=inner.base, index=inner.index, plus=number)
            node.alias = Node('postfix', node.first, [], **fields)
        else:
            node.alias = Node('postfix', node.first, [], mark='[]', base=inner.part, index=None, plus=number)
        node.alias.value_type, node.alias.last = found.element, node.last
        return found.element
