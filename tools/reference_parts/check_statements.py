"""The part of the checker for statements."""
from .numbers import WRAP, is_number, promoted


class Arms:
    """What is known of a `switch` while its body is checked: the type of its value, its labels."""

    def __init__(self, value_type):
        self.value_type, self.labels, self.has_default = value_type, set(), False


class Statements:
    """Checks statements. `where` says what is around: outer, inner, forhead; `arms` is the switch around at once."""

    def statement(self, node, where, arms):
        """Checks any statement or declaration."""
        checks = {'if': self.check_if, 'while': self.check_loop, 'do': self.check_loop, 'for': self.check_for,
                  'switch': self.check_switch, 'return': self.check_return}
        if node.form == 'declare':
            self.declare(node, where)
        elif node.form == 'block':
            self.inside(node.parts, None)
        elif node.form == 'simple':
            if node.part is not None and not (where != 'forhead' and self.vector_statement(node.part)):
                self.type_of(node.part, is_whole=True)
        elif node.form == 'case':
            self.check_case(node, arms)
        elif node.form == 'default':
            self.check_default(node, arms)
        elif node.form == 'break':
            if not self.loops and not self.switches:
                self.fault(node, 415)
        elif node.form == 'continue':
            if not self.loops:
                self.fault(node, 415)
        else:
            checks[node.form](node)

    def inside(self, statements, arms):
        """Checks statements in a scope of their own."""
        self.scopes.append({})
        for each in statements:
            self.statement(each, 'inner', arms)
        self.scopes.pop()

    def condition(self, node):
        """Checks a test; its type where it is a number."""
        found = self.type_of(node)
        if found is not None and not is_number(found):
            self.fault(node, 403)
            return None
        return found

    def body(self, node):
        """Checks the body of a loop."""
        self.loops += 1
        self.statement(node, 'inner', None)
        self.loops -= 1

    def check_if(self, node):
        """Checks an `if`."""
        self.condition(node.test)
        self.statement(node.yes, 'inner', None)
        if node.no:
            self.statement(node.no, 'inner', None)

    def check_loop(self, node):
        """Checks a `while` or a `do`."""
        if node.form == 'while':
            self.condition(node.test)
        self.body(node.body)
        if node.form == 'do':
            self.condition(node.test)

    def check_for(self, node):
        """Checks a `for`."""
        self.scopes.append({})
        self.statement(node.before, 'forhead', None)
        if node.test:
            self.condition(node.test)
        if node.further:
            self.type_of(node.further)
        self.body(node.body)
        self.scopes.pop()

    def check_switch(self, node):
        """Checks a `switch`."""
        found = self.condition(node.value)
        node.promoted_type = promoted(found) if is_number(found) else None
        self.switches += 1
        self.inside(node.body, Arms(node.promoted_type))
        self.switches -= 1

    def check_case(self, node, arms):
        """Checks a `case` and what is behind it."""
        self.type_of(node.value)
        value, number = self.constant(node.value), None
        if arms is None:
            number = 415
        elif value is None:
            number = 416
        elif arms.value_type is not None:
            node.label = WRAP[arms.value_type](value)
            if node.label in arms.labels:
                number = 416
            arms.labels.add(node.label)
        self.statement(node.body, 'inner', arms)
        if number:
            self.fault(node, number)

    def check_default(self, node, arms):
        """Checks a `default` and what is behind it."""
        number = None
        if arms is None:
            number = 415
        elif arms.has_default:
            number = 416
        else:
            arms.has_default = True
        self.statement(node.body, 'inner', arms)
        if number:
            self.fault(node, number)

    def check_return(self, node):
        """Checks a `return`."""
        found = None
        if node.part is not None:
            found = self.type_of(node.part)
            if found is None:
                return
        if (node.part is not None) == self.function.is_void or (node.part is not None and not is_number(found)):
            self.fault(node, 417)
