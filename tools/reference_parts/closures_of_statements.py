"""The functions of statements and declarations."""
from .memory import Object, store, turn
from .numbers import BITS, SIZE, WRAP, holds_all

BREAK, CONTINUE, RETURN = 1, 2, 3


def converted(function, have, want):
    """A function of a frame, with its value converted."""
    if have == want or (have in BITS and want in BITS and holds_all(want, have)):
        return function
    wrap = WRAP[want]
    return lambda frame: wrap(function(frame))


class Arms:
    """The statements of the body of a `switch`: where each label leads, and where a value without a label does."""

    def __init__(self, node):
        self.statements, self.labels, other = [], {}, None
        for each in node.body:
            at = len(self.statements)
            while each.form in ('case', 'default'):
                if each.form == 'case':
                    self.labels[each.label] = at
                else:
                    other = at
                each = each.body
            self.statements.append(each)
        self.other = len(self.statements) if other is None else other

    def from_value(self, value):
        """The number of the statement to which a value leads."""
        return self.labels.get(value, self.other)


class StatementClosures:
    """Makes functions of statements."""

    def converted_value(self, node, want):
        """The function of an expression, converted to a type of number."""
        return converted(self.value(node), node.value_type, want)

    def value_of_simple(self, node):
        """The function of an expression as a statement."""
        if node.part is None:
            return lambda frame: 0
        part = self.value(node.part)

        def simple(frame):
            part(frame)
            return 0
        return simple

    def value_of_block(self, node):
        """The function of a block, or of a declaration."""
        statements = [self.value(each) for each in (node.parts if node.form == 'block' else node.declarators)]

        def block(frame):
            for each in statements:
                ended = each(frame)
                if ended:
                    return ended
            return 0
        return block

    value_of_declare = value_of_block

    def value_of_declarator(self, node):
        """The function of one name of a declaration."""
        symbol, slot = node.symbol, node.symbol.slot
        if symbol.kind in ('array', 'object'):
            return self.array(node) if symbol.space == 'private' else lambda frame: 0
        if node.initialiser is None:
            value = lambda frame: 0
        elif symbol.kind == 'scalar':
            value = self.converted_value(node.initialiser, symbol.type)
        else:
            value = self.value(node.initialiser)

        def declare(frame):
            frame[slot] = value(frame)
            return 0
        return declare

    def array(self, node):
        """The function that makes a private array."""
        symbol, slot, name = node.symbol, node.symbol.slot, node.symbol.element
        size, text = symbol.count * SIZE[name], symbol.text
        parts = [] if node.initialiser is None else node.initialiser.parts
        values = [self.converted_value(each, name) for each in parts]

        def make(frame):
            made = Object(bytearray(size), text, 1, False)
            frame[slot] = made
            for at, value in enumerate(values):
                store(frame[0], made, at, name, value(frame), node)
            return 0
        return make

    def value_of_if(self, node):
        """The function of an `if`."""
        test, yes = self.value(node.test), self.value(node.yes)
        no = self.value(node.no) if node.no else lambda frame: 0
        return lambda frame: yes(frame) if test(frame) else no(frame)

    def value_of_for(self, node):
        """The function of a `for`, or of a `while`."""
        nothing = lambda frame: 0
        before = self.value(node.before) if node.form == 'for' else nothing
        further = self.value(node.further) if node.form == 'for' and node.further else nothing
        test = self.value(node.test) if node.test else lambda frame: 1
        body = self.value(node.body)

        def loop(frame):
            before(frame)
            while test(frame):
                turn(frame[0])
                ended = body(frame)
                if ended == BREAK:
                    return 0
                if ended == RETURN:
                    return RETURN
                further(frame)
            return 0
        return loop

    value_of_while = value_of_for

    def value_of_do(self, node):
        """The function of a `do`."""
        test, body = self.value(node.test), self.value(node.body)

        def loop(frame):
            while True:
                turn(frame[0])
                ended = body(frame)
                if ended == BREAK:
                    return 0
                if ended == RETURN:
                    return RETURN
                if not test(frame):
                    return 0
        return loop

    def value_of_switch(self, node):
        """The function of a `switch`."""
        arms = Arms(node)
        value = self.converted_value(node.value, node.promoted_type)
        statements = [self.value(each) for each in arms.statements]

        def switch(frame):
            for each in statements[arms.from_value(value(frame)):]:
                ended = each(frame)
                if ended:
                    return 0 if ended == BREAK else ended
            return 0
        return switch

    def value_of_case(self, node):
        """The function of a `case` or `default`: that of what is behind it."""
        return self.value(node.body)

    value_of_default = value_of_case

    def value_of_break(self, node):
        """The function of a `break`."""
        return lambda frame: BREAK

    def value_of_continue(self, node):
        """The function of a `continue`."""
        return lambda frame: CONTINUE

    def value_of_return(self, node):
        """The function of a `return`."""
        if node.part is None:
            return lambda frame: RETURN
        value = self.converted_value(node.part, node.result_type)

        def leave(frame):
            frame[1] = value(frame)
            return RETURN
        return leave
