"""Objects of memory, accesses to them, and what ends a launch before its end."""
from .numbers import SIGNED, SIZE

MASK = (1 << 64) - 1
HALF = 1 << 63


class OutOfRange(Exception):
    """An item's access is out of range."""

    def __init__(self, item, node):
        super().__init__(item, node)
        self.item, self.node = item, node


class OutOfTurns(Exception):
    """A launch has no turns left."""


class Race(Exception):
    """Two items race: the name of the object, the byte, and the items."""

    def __init__(self, what):
        super().__init__(what)
        self.what = what


class Object:
    """An object of memory. `unit` is the least number of bytes that an access to it takes at once.

    `writes` and `reads` hold the last accesses by place, where races are looked for."""

    __slots__ = ('data', 'name', 'unit', 'is_shared', 'writes', 'reads')

    def __init__(self, data, name, unit=1, is_shared=True):
        self.data, self.name, self.unit, self.is_shared = data, name, unit, is_shared
        self.writes, self.reads = {}, {}


class Item:
    """A work-item: its launch, group, number in the group and in the launch, ids, and where it stands.

    `marks` are the calls and loops around, `walk` what makes it go on, `at` the barrier at which it waits."""

    __slots__ = ('launch', 'group', 'number', 'local_id', 'global_id', 'group_id', 'marks', 'walk', 'at', 'is_over')


class Group:
    """A work-group: its number, how many barriers it passed, its items, and how many of them are on their way."""

    __slots__ = ('number', 'passed', 'items', 'left')


def note(item, thing, index, size, is_store):
    """Notes an access, and raises Race where another one is not ordered with it."""
    passed, group, me = item.group.passed, item.group.number, item.number
    for place in range(index * size, (index + 1) * size, thing.unit):
        written = thing.writes.get(place)
        if written is not None and written[2] != me and (written[0] != group or written[1] == passed):
            raise Race((thing.name, place, written[2], me))
        read = thing.reads.get(place)
        if is_store:
            # A read is noted as its group, or -1 for several; the barriers passed; its item, or -1 for several.
            if read is not None and (read[0] != group or (read[1] == passed and read[2] != me)):
                raise Race((thing.name, place, read[2], me))
            thing.writes[place] = (group, passed, me)
        elif read is None:
            thing.reads[place] = [group, passed, me]
        elif read[0] != group:
            read[0] = -1
        elif read[1] != passed:
            read[1], read[2] = passed, me
        elif read[2] != me:
            read[2] = -1


def place_in(item, thing, index, size, node, is_store):
    """The index of an element as a signed number of 64 bits, in range."""
    index = ((index + HALF) & MASK) - HALF
    if index < 0 or (index + 1) * size > len(thing.data):
        raise OutOfRange(item, node)
    if item.launch.looks_for_races and thing.is_shared:
        note(item, thing, index, size, is_store)
    return index * size


def load(item, thing, index, name, node):
    """Loads an element of a type."""
    size = SIZE[name]
    start = place_in(item, thing, index, size, node, False)
    value = int.from_bytes(thing.data[start:start + size], 'little', signed=name in SIGNED)
    return (1 if value else 0) if name == 'bool' else value


def store(item, thing, index, name, value, node):
    """Stores an element of a type."""
    size = SIZE[name]
    start = place_in(item, thing, index, size, node, True)
    thing.data[start:start + size] = value.to_bytes(size, 'little', signed=name in SIGNED)


def turn(item):
    """An item begins an iteration."""
    launch = item.launch
    launch.turned += 1
    if launch.turned > launch.turns:
        raise OutOfTurns()


ONES = {'get_global_size', 'get_local_size', 'get_num_groups'}
BY_DIMENSION = {
    'get_global_id': lambda item, at: item.global_id[at], 'get_local_id': lambda item, at: item.local_id[at],
    'get_group_id': lambda item, at: item.group_id[at],
    'get_global_size': lambda item, at: item.launch.global_sizes[at],
    'get_local_size': lambda item, at: item.launch.local_sizes[at],
    'get_num_groups': lambda item, at: item.launch.group_counts[at],
    'get_global_offset': lambda item, at: item.launch.offsets[at]}


def query(item, text, dimension):
    """The value of a work-item function."""
    if text == 'get_work_dim':
        return item.launch.dimensions
    if dimension < 3:
        return BY_DIMENSION[text](item, dimension)
    return 1 if text in ONES else 0
