"""Structures as values: assigned, passed and returned number by number."""
from . import types
from .cells import Address, Index, cells_of
from .context import Step
from .notes import Refused
from .places import Target
from .starts import numbers_of
from .tree import stripped

MOST_COPIED = 256


class Structs:
    """The part of the lowering that writes structures."""

    def struct_place(self, node, context, is_twice=True):
        """The place of a structure, whatever gives it."""
        inner = stripped(node)
        if inner.kind == 'call':
            name = self.new_struct(inner.type, context)
            context.steps.append(Step(self.own_call(inner, context, name)))
            self.notes.add('a function that returns a structure stores it through a pointer', inner.token)
            return self.result_place(name, inner.type)
        if inner.kind == 'assign':
            context.steps.append(Step(self.assign_struct(inner, context)))
            return self.address(inner.left, context, True)
        if inner.kind == 'comma':
            left = self.effect(inner.left, context)
            if left:
                context.steps.append(Step(left))
            return self.struct_place(inner.right, context, is_twice)
        if inner.kind == 'choose':
            return self.chosen_struct(inner, context)
        return self.address(inner, context, True)

    def literal_place(self, node, context):
        """The place of a compound literal: a new variable, whose numbers are stored first."""
        self.notes.add('a compound literal is a variable', node.token)
        place = self.result_place(self.new_struct(node.type, context), node.type)
        values = numbers_of(node.type, node.list)
        for number, (leaf, at) in enumerate(self.places_of_leaves(place, node.type)):
            target = Target(None, place.at(Index(at), leaf))
            text = self.leaf(values.get(number), leaf, context)
            text = text if target.is_whole() else context.keep(text, leaf)
            context.steps.append(Step(target.store('=', text, False)))
        return place

    def new_struct(self, kind, context):
        """A new variable for a structure."""
        cells = cells_of(kind, 'private')
        return context.variable(cells.name, cells.count(kind))

    def result_place(self, name, kind):
        """The place of a structure in a private array."""
        return Address([name], None, Index(), cells_of(kind, 'private'), kind, 'private')

    def chosen_struct(self, node, context):
        """One of two structures."""
        name = self.new_struct(node.type, context)
        place, test, texts = self.result_place(name, node.type), self.truth(node.test, context), []
        for arm in (node.yes, node.no):
            inner = context.part()
            text = self.copied(place, self.struct_place(arm, inner))
            texts.append(inner.ahead(['(', text, ')']))
        context.steps.append(Step(['(', test, ' ? ', texts[0], ' : ', texts[1], ')']))
        return place

    def places_of_leaves(self, place, kind):
        """The type of each number of a structure, and how many elements stand before it."""
        size = place.cells.size
        return [(leaf, at // size if size else number) for number, (leaf, at) in enumerate(types.leaves(kind))]

    def copied(self, to, source):
        """The stores that copy a structure, as one expression."""
        if to.cells.size and (to.cells.name, to.cells.size) == (source.cells.name, source.cells.size) \
                and to.which is None and source.which is None:
            return self.copied_elements(to, source)
        leaves = list(zip(self.places_of_leaves(to, to.kind), self.places_of_leaves(source, source.kind)))
        if len(leaves) > MOST_COPIED:
            raise Refused(None, 'a structure of more than %d numbers that is copied' % MOST_COPIED)
        found = []
        for (leaf, here), (_, there) in leaves:
            text = Target(None, source.at(Index(there), leaf)).load()
            found += [', '] if found else []
            found.append(Target(None, to.at(Index(here), leaf)).store('=', text, False))
        return found

    def copied_elements(self, to, source):
        """The stores that copy element by element."""
        count, found = to.cells.count(to.kind), []
        if count > MOST_COPIED:
            raise Refused(None, 'a structure of more than %d numbers that is copied' % MOST_COPIED)
        for number in range(count):
            found += [', '] if found else []
            found += [to.element(to.bases[0], number), ' = ', source.element(source.bases[0], number)]
        return found

    def assign_struct(self, node, context):
        """An assignment of a structure."""
        place = self.address(node.left, context, True)
        if to_call(node.right):
            self.notes.add('a structure that is assigned is copied number by number', node.op)
        return self.copied(place, self.struct_place(node.right, context))

    def struct_parts(self, node, context):
        """The numbers of a structure, as arguments."""
        place = self.struct_place(node, context)
        self.notes.add('a structure as an argument is passed number by number', node.token)
        return [Target(None, place.at(Index(at), leaf)).load() for leaf, at in self.places_of_leaves(place, node.type)]


def to_call(node):
    """Whether an expression is more than a place."""
    return stripped(node).kind != 'call'
