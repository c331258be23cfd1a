"""Walks vector statements: the target's index, its old components, the leaves of the value, then the stores."""
from .check_vectors import chosen_of
from .memory import load, store
from .numbers import COMPARISONS, OPERATORS, WRAP, built_in
from .symbols import VectorType


class VectorSteps:
    """The part of the walk for vectors, which are lists of their components."""

    def vector_steps(self, node, frame):
        """Walks an assignment to a vector, or the declaration of one."""
        if node.form == 'declarator':
            values = [0] * node.symbol.type.count
            if node.initialiser is not None:
                values = yield from self.vector(node.initialiser, frame)
            for component, value in zip(node.symbol.components, values):
                frame[component.slot] = value
            return
        target, chosen = chosen_of(node.parts[0])
        name, old = node.parts[0].value_type.element, None
        if target.form == 'variable':
            slots = [target.symbol.components[number].slot for number in chosen]
            old = [frame[slot] for slot in slots]
        else:
            thing, at = yield from self.element(target, frame)
            if node.mark != '=':
                if self.steps_at_accesses:
                    yield None
                old = [load(frame[0], thing, at + number, name, target) for number in chosen]
        values = yield from self.components(node.parts[1], len(chosen), name, frame)
        if node.mark != '=':
            operator = OPERATORS[node.mark[:-1], name]
            values = [operator(left, right) for left, right in zip(old, values)]
        if target.form == 'variable':
            for slot, value in zip(slots, values):
                frame[slot] = value
            return
        if self.steps_at_accesses:
            yield None
        for number, value in zip(chosen, values):
            store(frame[0], thing, at + number, name, value, target)

    def components(self, node, count, name, frame):
        """The components of an operand: those of a vector, or a number for each."""
        if isinstance(node.value_type, VectorType):
            return (yield from self.vector(node, frame))
        value = yield from self.walk(node, frame)
        return [WRAP[name](value)] * count

    def vector(self, node, frame):
        """The components of a vector."""
        if node.form == 'paren':
            return (yield from self.vector(node.part, frame))
        if node.form == 'variable':
            return [frame[component.slot] for component in node.symbol.components]
        if node.form == 'postfix' and node.mark == '.':
            values = yield from self.vector(node.part, frame)
            return [values[number] for number in node.chosen]
        if node.form == 'postfix' or (node.form == 'unary' and node.mark == '*'):
            thing, at = yield from self.element(node, frame)
            if self.steps_at_accesses:
                yield None
            found = node.value_type
            return [load(frame[0], thing, at + number, found.element, node) for number in range(found.count)]
        if node.form == 'unary':
            values = yield from self.vector(node.part, frame)
            wrap = WRAP[node.value_type.element]
            return [wrap(-each if node.mark == '-' else ~each if node.mark == '~' else each) for each in values]
        if node.form == 'cast':
            return (yield from self.listed(node, frame))
        parts = []
        for part in node.arguments if node.form == 'call' else node.parts:
            parts.append((yield from self.components(part, node.value_type.count, node.computed_in, frame)))
        if node.form == 'call':
            return [built_in(node.text, node.computed_in, list(each)) for each in zip(*parts)]
        operator = OPERATORS[node.mark, node.computed_in]
        values = [operator(left, right) for left, right in zip(*parts)]
        return [-each for each in values] if node.mark in COMPARISONS else values

    def listed(self, node, frame):
        """The components of a list."""
        values = []
        for item in node.items:
            if isinstance(item.value_type, VectorType):
                values += yield from self.vector(item, frame)
            else:
                value = yield from self.walk(item, frame)
                values.append(WRAP[node.value_type.element](value))
        return values * node.value_type.count if len(values) == 1 else values
