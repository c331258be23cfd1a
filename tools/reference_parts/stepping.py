"""Walks a kernel step by step, where items take turns.

Each method is a generator. It yields None before an access to shared memory, where accesses are steps, and at a
barrier the point at which the item waits: the calls and iterations around, the barrier, and its node."""
from .closures import Closures, is_shared, is_variable, note_result_types, stepped, updated
from .closures_of_statements import BREAK, RETURN, Arms
from .memory import Object, load, query, store, turn
from .numbers import OPERATORS, SHIFTS, SIZE, WRAP, built_in, is_number
from .stepping_vectors import VectorSteps
from .symbols import Pointer
from .tree import bare


def converted_value(value, have, want):
    """A value, converted."""
    return value if have == want else WRAP[want](value)


def pointer_moved(pointer, count, stride):
    """A pointer so many steps further."""
    return pointer[0], pointer[1] + count * stride


def is_shared_element(node):
    """Whether an element stands in memory that several items share."""
    if node.form == 'variable':
        return node.symbol.space in ('global', 'local')
    return is_shared(node.base if node.form == 'postfix' else node.part)


class Steps(Closures, VectorSteps):
    """Walks nodes; what no step is in is left to the functions of `Closures`."""

    def walk(self, node, frame):
        """Walks a node, and gives its value or what it ends."""
        if not node.is_stepped:
            return self.value(node)(frame)
        if node.alias is not None:
            return (yield from self.walk(node.alias, frame))
        if node.is_vector_statement or (node.form == 'declarator' and node.symbol.kind == 'vector'):
            yield from self.vector_steps(node, frame)
            return 0
        return (yield from getattr(self, 'walk_' + node.form)(node, frame))

    def element(self, node, frame):
        """Walks to an element: its object and number."""
        node = bare(node)
        if not node.is_stepped or node.form == 'variable':
            if node.address_closure is None:
                node.address_closure = self.address(node)
            return node.address_closure(frame)
        if node.form != 'postfix':
            return (yield from self.walk(node.part, frame))
        thing, at = yield from self.walk(node.base, frame)
        index = 0
        if node.index is not None:
            index = yield from self.walk(node.index, frame)
        return thing, at + index * node.base.value_type.stride() + node.plus

    def loaded_element(self, node, frame):
        """Walks to an element, and loads it where it is a number."""
        thing, at = yield from self.element(node, frame)
        if not is_number(node.value_type):
            return thing, at
        if self.steps_at_accesses and is_shared_element(node):
            yield None
        return load(frame[0], thing, at, node.value_type, node)

    # Expressions

    def walk_paren(self, node, frame):
        """Walks an expression in parentheses."""
        return (yield from self.walk(node.part, frame))

    def walk_variable(self, node, frame):
        """Loads a number in local memory that has a name."""
        thing, at = yield from self.element(node, frame)
        if node.symbol.kind == 'array':
            return thing, at
        if self.steps_at_accesses and node.has_access:
            yield None
        return load(frame[0], thing, at, node.value_type, node)

    def walk_cast(self, node, frame):
        """Walks a cast."""
        value = yield from self.walk(node.part, frame)
        return converted_value(value, node.part.value_type, node.value_type)

    def walk_comma(self, node, frame):
        """Walks the operator `,`."""
        yield from self.walk(node.parts[0], frame)
        return (yield from self.walk(node.parts[1], frame))

    def walk_choice(self, node, frame):
        """Walks `? :`."""
        test = yield from self.walk(node.parts[0], frame)
        arm = node.parts[1] if test else node.parts[2]
        value = yield from self.walk(arm, frame)
        return converted_value(value, arm.value_type, node.value_type)

    def walk_binary(self, node, frame):
        """Walks an operator with two operands."""
        one, other = node.parts
        left = yield from self.walk(one, frame)
        if node.mark in ('&&', '||'):
            if bool(left) == (node.mark == '||'):
                return 1 if left else 0
            right = yield from self.walk(other, frame)
            return 1 if right else 0
        right = yield from self.walk(other, frame)
        if isinstance(one.value_type, Pointer):
            return pointer_moved(left, right if node.mark == '+' else -right, one.value_type.components or 1)
        if isinstance(other.value_type, Pointer):
            return pointer_moved(right, left, other.value_type.components or 1)
        left = converted_value(left, one.value_type, node.computed_in)
        if node.mark not in SHIFTS:
            right = converted_value(right, other.value_type, node.computed_in)
        return OPERATORS[node.mark, node.computed_in](left, right)

    def walk_unary(self, node, frame):
        """Walks an operator in front."""
        if node.mark in ('++', '--'):
            return (yield from self.walk_step(node, frame))
        if node.mark == '&':
            return (yield from self.element(node.part, frame))
        if node.mark == '*':
            return (yield from self.loaded_element(node, frame))
        value = yield from self.walk(node.part, frame)
        if node.mark == '!':
            return 0 if value else 1
        value = converted_value(value, node.part.value_type, node.value_type)
        return WRAP[node.value_type](-value if node.mark == '-' else ~value if node.mark == '~' else value)

    def walk_postfix(self, node, frame):
        """Walks an element, or an operator behind."""
        if node.mark in ('++', '--'):
            return (yield from self.walk_step(node, frame))
        return (yield from self.loaded_element(node, frame))

    def walk_step(self, node, frame):
        """Walks `++` and `--`."""
        target = bare(node.part)
        if is_variable(target):
            return self.value(node)(frame)
        thing, at = yield from self.element(target, frame)
        is_step = self.steps_at_accesses and is_shared_element(target)
        if is_step:
            yield None
        old = load(frame[0], thing, at, node.value_type, target)
        new = stepped(old, 1 if node.mark == '++' else -1, node.computed_in, node.value_type)
        if is_step:
            yield None
        store(frame[0], thing, at, node.value_type, new, target)
        return old if node.form == 'postfix' else new

    def walk_assignment(self, node, frame):
        """Walks an assignment."""
        target, right, name = bare(node.parts[0]), node.parts[1], node.value_type
        if is_variable(target):
            return (yield from self.walk_variable_set(node, target.symbol.slot, right, frame))
        thing, at = yield from self.element(target, frame)
        is_step = self.steps_at_accesses and is_shared_element(target)
        if node.mark != '=':
            if is_step:
                yield None
            old = load(frame[0], thing, at, name, target)
        value = yield from self.walk(right, frame)
        if node.mark == '=':
            value = converted_value(value, right.value_type, name)
        else:
            value = updated(node, name)(old, value)
        if is_step:
            yield None
        store(frame[0], thing, at, name, value, target)
        return value

    def walk_variable_set(self, node, slot, right, frame):
        """Walks an assignment to a variable."""
        name, old = node.value_type, frame[slot]
        value = yield from self.walk(right, frame)
        if node.mark == '=':
            value = converted_value(value, right.value_type, name) if is_number(name) else value
        elif isinstance(name, Pointer):
            value = pointer_moved(old, value if node.mark == '+=' else -value, name.components or 1)
        else:
            value = updated(node, name)(old, value)
        frame[slot] = value
        return value

    def walk_call(self, node, frame):
        """Walks a call."""
        item = frame[0]
        if node.kind == 'fence':
            if node.text == 'barrier':
                yield tuple(item.marks), id(node), node
            return None
        values = []
        for each in node.arguments:
            values.append((yield from self.walk(each, frame)))
        types = [each.value_type for each in node.arguments]
        if node.kind == 'query':
            return query(item, node.text, WRAP['uint'](values[0]))
        if node.kind == 'built-in':
            wanted = [converted_value(value, have, node.computed_in) for value, have in zip(values, types)]
            return built_in(node.text, node.computed_in, wanted)
        function = self.functions[node.text]
        note_result_types(function)
        inner = [item, 0] + [converted_value(value, have, want) if isinstance(want, str) else value
                             for value, have, want in zip(values, types, function.parameter_types)]
        inner += [0] * (function.slots - len(inner))
        item.marks.append(('call', id(node)))
        yield from self.walk(function.node.block, inner)
        item.marks.pop()
        return inner[1]

    # Statements

    def walk_simple(self, node, frame):
        """Walks an expression as a statement."""
        yield from self.walk(node.part, frame)
        return 0

    def walk_block(self, node, frame):
        """Walks a block, or a declaration."""
        for each in node.parts if node.form == 'block' else node.declarators:
            ended = yield from self.walk(each, frame)
            if ended:
                return ended
        return 0

    walk_declare = walk_block

    def walk_declarator(self, node, frame):
        """Walks one name of a declaration, which has an initialiser."""
        symbol, initialiser = node.symbol, node.initialiser
        if symbol.kind in ('scalar', 'pointer'):
            value = yield from self.walk(initialiser, frame)
            if symbol.kind == 'scalar':
                value = converted_value(value, initialiser.value_type, symbol.type)
            frame[symbol.slot] = value
            return 0
        made = Object(bytearray(symbol.count * SIZE[symbol.element]), symbol.text, 1, False)
        for at, each in enumerate(initialiser.parts):
            value = yield from self.walk(each, frame)
            value = converted_value(value, each.value_type, symbol.element)
            store(frame[0], made, at, symbol.element, value, node)
        frame[symbol.slot] = made
        return 0

    def walk_if(self, node, frame):
        """Walks an `if`."""
        test = yield from self.walk(node.test, frame)
        if test:
            return (yield from self.walk(node.yes, frame))
        return (yield from self.walk(node.no, frame)) if node.no else 0

    def walk_for(self, node, frame):
        """Walks a loop."""
        item = frame[0]
        if node.form == 'for':
            yield from self.walk(node.before, frame)
        depth, iteration, is_tested = len(item.marks), 0, node.form != 'do'
        item.marks.append(('loop', id(node), 0))
        while True:
            if is_tested and node.test is not None:
                test = yield from self.walk(node.test, frame)
                if not test:
                    break
            is_tested = True
            turn(item)
            iteration += 1
            item.marks[depth] = ('loop', id(node), iteration)
            ended = yield from self.walk(node.body, frame)
            if ended in (BREAK, RETURN):
                del item.marks[depth:]
                return RETURN if ended == RETURN else 0
            if node.form == 'for' and node.further:
                yield from self.walk(node.further, frame)
        del item.marks[depth:]
        return 0

    walk_while = walk_do = walk_for

    def walk_switch(self, node, frame):
        """Walks a `switch`."""
        item, arms = frame[0], Arms(node)
        value = yield from self.walk(node.value, frame)
        first = arms.from_value(converted_value(value, node.value.value_type, node.promoted_type))
        depth, ended = len(item.marks), 0
        item.marks.append(('switch', id(node)))
        for each in arms.statements[first:]:
            ended = yield from self.walk(each, frame)
            if ended:
                break
        del item.marks[depth:]
        return 0 if ended == BREAK else ended

    def walk_case(self, node, frame):
        """Walks what is behind a `case` or `default`."""
        return (yield from self.walk(node.body, frame))

    walk_default = walk_case

    def walk_return(self, node, frame):
        """Walks a `return` with a value."""
        value = yield from self.walk(node.part, frame)
        frame[1] = converted_value(value, node.part.value_type, node.result_type)
        return RETURN
