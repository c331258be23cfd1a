"""Finds all outcomes of a launch."""
from .launches import Launch
from .memory import OutOfRange, OutOfTurns, Race

MOST_TURNS = 300000


class Outcomes(Launch):
    """A launch of which all outcomes are wanted.

    Without a race, what an item does up to its next barrier does not depend on the order of the items. So each item
    is followed to its next barrier, end or fault; any of the faults can be what the launch ends with."""

    def all(self):
        """A set of outcomes, ('more',) among them where an item does not end within a cap on turns; ('race', ..)
        alone where the launch races."""
        real, self.turns, self.looks_for_races = self.turns, MOST_TURNS, True
        self.prepare(False)
        self.found = set()
        try:
            # Any group may come first, so each of them is followed.
            is_stopped = any([self.is_stopped_in(number) for number in range(self.groups)])
        except Race as end:
            return {('race', end.what)}
        if self.turned > real or ('more',) in self.found:
            self.found.add(('turns',))
        if not is_stopped:
            self.found.add(('done',))
        return self.found

    def is_stopped_in(self, number):
        """Follows a group, and says whether the launch ends in it."""
        group = self.group(number)
        for item in group.items:
            item.walk = self.steps.walk(self.block, item.walk)
        while True:
            stopped = {}
            for item in group.items:
                if not item.is_over:
                    self.follow(item, stopped)
            if stopped:
                self.found.update(self.all_parted(group, stopped))
                return True
            met = self.meet(group)
            if met == 'parted':
                self.found.update(self.all_parted(group) or [self.parted(group)])
                return True
            if not met:
                return False

    def follow(self, item, stopped):
        """Follows an item to its next barrier, end or fault. Notes where it stopped."""
        try:
            self.advance(item)
        except OutOfRange as end:
            self.found.add(('range', item.group.number, item.number, end.node))
            stopped[id(item)] = (tuple(item.marks), id(end.node), end.node)
        except OutOfTurns:
            self.found.add(('more',))
            self.turns = self.turned + MOST_TURNS
            stopped[id(item)] = None
