"""Runs one launch: in order, in a random order, or so that all its outcomes are found.

An outcome is a tuple: ('done',), ('turns',), ('race', what), ('range', group, item, node) or
('parted', group, item, node)."""
import random

from .memory import Group, Item, Object, OutOfRange, OutOfTurns, Race
from .numbers import SIGNED, SIZE, WRAP
from .stepping import Steps
from .tree import all_nodes


def product(sizes):
    """How many items or groups there are."""
    return sizes[0] * sizes[1] * sizes[2]


def in_dimensions(number, sizes):
    """The ids of the item or group with this number."""
    return number % sizes[0], number // sizes[0] % sizes[1], number // (sizes[0] * sizes[1])


class Launch:
    """A launch of a kernel over buffers, with the sizes and arguments that were bound."""

    def __init__(self, checker, kernel, bound, buffers, looks_for_races=False, seed=None):
        self.checker, self.kernel, self.bound, self.buffers = checker, kernel, bound, buffers
        self.looks_for_races, self.seed = looks_for_races, seed
        self.turned, self.turns = 0, bound['turns']
        self.dimensions = bound['dimensions']
        self.global_sizes, self.local_sizes, self.offsets = bound['global'], bound['local'], bound['offset']
        self.group_counts = [whole // part for whole, part in zip(self.global_sizes, self.local_sizes)]
        self.items_of_a_group, self.groups = product(self.local_sizes), product(self.group_counts)
        self.block = kernel.node.block
        self.places = None
        self.parted_outcomes = []

    # Before the first item

    def prepare(self, steps_at_accesses):
        """Makes the walk, the tables and the objects of the buffers."""
        self.steps = Steps(self.checker, steps_at_accesses)
        self.steps.prepare(self.kernel)
        for table in self.checker.tables:
            size, name = SIZE[table.element], table.element
            values = [WRAP[name](value).to_bytes(size, 'little', signed=name in SIGNED) for value in table.values]
            table.object = Object(bytearray(b''.join(values).ljust(table.count * size, b'\0')), table.text, 1, False)
        units = {}
        for symbol, (kind, value) in zip(self.kernel.parameters, self.bound['arguments']):
            if kind == 'buffer':
                units[value] = min(units.get(value, 8), SIZE[symbol.type.element])
        self.objects = [Object(data, 'buffer %d' % number, units.get(number, 1))
                        for number, data in enumerate(self.buffers)]

    def argument(self, symbol, kind, value):
        """What a parameter starts with in a group."""
        if kind == 'buffer':
            return self.objects[value], 0
        if kind == 'value':
            return value
        return Object(bytearray(value), symbol.text, SIZE[symbol.type.element]), 0

    def group(self, number):
        """A group with its items, each in front of the kernel's block."""
        made = Group()
        made.number, made.passed, made.items = number, 0, []
        start = [(symbol.slot, Object(bytearray(symbol.count * SIZE[symbol.element]), symbol.text,
                                      SIZE[symbol.element])) for symbol in self.kernel.locals]
        for symbol, (kind, value) in zip(self.kernel.parameters, self.bound['arguments']):
            start.append((symbol.slot, self.argument(symbol, kind, value)))
        for number_in_group in range(self.items_of_a_group):
            item = self.item(made, number_in_group)
            frame = [item, 0] + [0] * (self.kernel.slots - 2)
            for slot, value in start:
                frame[slot] = value
            item.walk = frame
            made.items.append(item)
        return made

    def item(self, group, number_in_group):
        """One item of a group."""
        item = Item()
        item.launch, item.group = self, group
        item.number = group.number * self.items_of_a_group + number_in_group
        item.local_id = in_dimensions(number_in_group, self.local_sizes)
        item.group_id = in_dimensions(group.number, self.group_counts)
        item.global_id = tuple(self.offsets[at] + item.group_id[at] * self.local_sizes[at] + item.local_id[at]
                               for at in range(3))
        item.marks, item.at, item.is_over = [], None, False
        return item

    # Running

    def run(self):
        """The outcome of the launch, in order or in a random order."""
        self.prepare(self.seed is not None)
        try:
            return self.in_order() if self.seed is None else self.shuffled(random.Random(self.seed))
        except OutOfRange as end:
            return ('range', end.item.group.number, end.item.number, end.node)
        except OutOfTurns:
            return ('turns',)
        except Race as end:
            return ('race', end.what)

    def advance(self, item):
        """Lets an item go on to its next barrier, or to its end."""
        try:
            item.at = next(item.walk)
            while item.at is None:
                item.at = next(item.walk)
        except StopIteration:
            item.is_over, item.at = True, None

    def in_order(self):
        """Runs group by group, and in a group item by item up to its next barrier."""
        for number in range(self.groups):
            group = self.group(number)
            if not self.block.is_stepped:
                run = self.steps.value(self.block)
                for item in group.items:
                    run(item.walk)
                continue
            for item in group.items:
                item.walk = self.steps.walk(self.block, item.walk)
            met = True
            while met is True:
                for item in group.items:
                    self.advance(item)
                met = self.meet(group)
                if met == 'parted':
                    return self.parted(group)
        return ('done',)

    def meet(self, group):
        """Where all items of a group stand: True at one barrier, which they pass; False all at the end; 'parted'."""
        if all(item.is_over for item in group.items):
            return False
        if any(item.is_over for item in group.items):
            return 'parted'
        point = group.items[0].at[:2]
        if any(item.at[:2] != point for item in group.items):
            return 'parted'
        group.passed += 1
        return True

    def shuffled(self, order):
        """Runs all items of all groups; any of them makes the next step."""
        groups = [self.group(number) for number in range(self.groups)]
        ready = []
        for group in groups:
            group.left = len(group.items)
            for item in group.items:
                item.walk = self.steps.walk(self.block, item.walk)
                ready.append(item)
        while ready:
            at = order.randrange(len(ready))
            item = ready[at]
            try:
                point = next(item.walk)
                if point is None:
                    continue
                item.at = point
            except StopIteration:
                item.is_over, item.at = True, None
            ready[at] = ready[-1]
            ready.pop()
            group = item.group
            group.left -= 1
            if group.left == 0 and self.meet(group) is True:
                group.left = len(group.items)
                ready.extend(group.items)
                for each in group.items:
                    each.at = None
        for group in groups:
            if any(not item.is_over for item in group.items):
                return self.parted(group)
        return ('done',)

    # Items that wait at different barriers

    def learn_places(self):
        """Notes of each node its last token, its parent and itself."""
        if self.places is None:
            self.places, self.parents, self.nodes = {}, {}, {}
            for node in all_nodes(self.checker.unit):
                self.places[id(node)], self.nodes[id(node)] = node.last, node
                for part in node.parts:
                    self.parents[id(part)] = id(node)
                if node.alias is not None:
                    self.places[id(node.alias)], self.nodes[id(node.alias)] = node.last, node.alias
                    self.parents[id(node.alias)] = id(node)

    def are_apart(self, one, other):
        """Whether two nodes stand in the two branches of one `if`, or in the two arms of one `? :`."""
        above, node = [], one
        while node in self.parents:
            above.append(node)
            node = self.parents[node]
        above.append(node)
        below = other
        while below in self.parents and self.parents[below] not in above:
            below = self.parents[below]
        if below not in self.parents:
            return False
        at = above.index(self.parents[below])
        if at == 0:
            return False
        top = self.nodes[self.parents[below]]
        parts = [id(part) for part in top.parts]
        return top.form in ('if', 'choice') and parts.index(below) > 0 and parts.index(above[at - 1]) > 0

    def is_behind(self, point, other):
        """Whether an item that stands at `other` can no longer come to `point`, by the text."""
        self.learn_places()
        for one, two in zip(point[0] + (('barrier', point[1]),), other[0] + (('barrier', other[1]),)):
            if one == two:
                continue
            if one[:2] == two[:2] and one[0] == 'loop':
                return one[2] < two[2]
            return self.places[one[1]] < self.places[two[1]] or self.are_apart(one[1], two[1])
        return False

    def all_parted(self, group, stopped=None):
        """All outcomes of a group whose items parted. `stopped` has the points of items that ended by a fault."""
        stopped, found = stopped or {}, []
        for item in group.items:
            if item.is_over or id(item) in stopped:
                continue
            for other in group.items:
                point = stopped.get(id(other), other.at)
                if other is not item and (other.is_over or (point is not None and self.is_behind(item.at, point))):
                    found.append(('parted', group.number, item.number, item.at[2]))
                    break
        return found

    def parted(self, group):
        """The first outcome of a group whose items parted."""
        self.parted_outcomes = self.all_parted(group)
        if self.parted_outcomes:
            return self.parted_outcomes[0]
        item = next(each for each in group.items if not each.is_over)
        return ('parted', group.number, item.number, item.at[2])
