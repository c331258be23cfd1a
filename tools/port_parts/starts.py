"""What the numbers of a variable start as, by its initialiser (C99, 6.7.8)."""
from . import types
from .notes import Refused
from .types import Array, Scalar, Struct, Vector


def numbers_of(kind, initial):
    """By its number among the numbers of the type: an expression and the number of its component, or a value."""
    found = {}
    if initial.kind == 'list':
        fill_list(kind, initial, found, 0)
    else:
        fill_one(kind, initial, found, 0)
    return found


def count(kind):
    """How many numbers a type has."""
    return len(list(types.leaves(kind)))


def parts_of(kind):
    """The parts of an array, a structure or a vector."""
    if isinstance(kind, Array):
        return [kind.of] * kind.length
    if isinstance(kind, Struct):
        return [own for _, own, _ in kind.fields[:1 if kind.is_union else None]]
    if isinstance(kind, Vector):
        return [Scalar(kind.base)] * kind.count
    return [kind]


def part_start(kind, number):
    """How many numbers stand before a part."""
    if isinstance(kind, Array):
        return number * count(kind.of)
    return sum(count(own) for own in parts_of(kind)[:number])


def fill_one(kind, node, found, at):
    """One expression that is not a list starts a whole object."""
    if node.kind == 'string' and isinstance(kind, Array):
        for number, value in enumerate(node.values[:kind.length]):
            found[at + number] = value
    elif isinstance(kind, Scalar):
        found[at] = (node, None)
    elif isinstance(kind, Vector) and node.type == kind:
        for number in range(kind.count):
            found[at + number] = (node, number)
    elif isinstance(kind, Vector) and types.is_number(node.type):
        for number in range(kind.count):
            found[at + number] = (node, None)
    else:
        raise Refused(node.token, 'an initialiser of this form')


def is_whole(kind, node):
    """Whether an expression starts a whole object, and not its first number."""
    if isinstance(kind, Scalar):
        return True
    if node.kind == 'string':
        return isinstance(kind, Array) and isinstance(kind.of, Scalar)
    return node.type == kind


def fill_list(kind, node, found, at):
    """A list in braces for one object."""
    if isinstance(kind, Scalar):
        if len(node.items) > 1:
            raise Refused(node.token, 'a list of several numbers for one')
        if node.items:
            fill_list(kind, node.items[0], found, at) if node.items[0].kind == 'list' \
                else fill_one(kind, node.items[0], found, at)
        return
    if len(node.items) == 1 and node.items[0].kind == 'string' and isinstance(kind, Array):
        fill_one(kind, node.items[0], found, at)
        return
    left = fill_parts(kind, node.items, 0, found, at, True)
    if left < len(node.items):
        raise Refused(node.items[left].token, 'a list with more parts than there are')


def fill_parts(kind, items, next_item, found, at, is_outer):
    """The parts of an object from the items of a list, from one on; the number of the next item. Without braces of its
    own the object takes as many items as it has numbers."""
    parts = parts_of(kind)
    number = 0
    while next_item < len(items):
        item = items[next_item]
        if item.places:
            if not is_outer:
                return next_item
            number = place_number(kind, item.places[0], item)
            if len(item.places) > 1:
                raise Refused(item.token, 'a place inside a place in a list')
        if number >= len(parts):
            return next_item
        part, start = parts[number], at + part_start(kind, number)
        for each in range(start, start + count(part)):
            found.pop(each, None)
        if item.kind == 'list':
            fill_list(part, item, found, start)
            next_item += 1
        elif is_whole(part, item):
            fill_one(part, item, found, start)
            next_item += 1
        else:
            next_item = fill_parts(part, items, next_item, found, start, False)
        number += 1
    return next_item


def place_number(kind, place, item):
    """The number of a part that a list names."""
    if isinstance(kind, Struct) and kind.is_union:
        raise Refused(item.token, 'a field of a union in a list')
    if isinstance(place, str):
        names = [name for name, _, _ in kind.fields] if isinstance(kind, Struct) else []
        if place not in names:
            raise Refused(item.token, 'no field %s' % place)
        return names.index(place)
    return place


def completed(kind, initial, name):
    """The type of an array whose first length is left out, with the length that its initialiser gives."""
    if not (isinstance(kind, Array) and kind.length is None):
        return kind
    if initial is None or initial.kind not in ('list', 'string'):
        raise Refused(name, 'the length of an array is left out')
    if initial.kind == 'string':
        return Array(kind.of, len(initial.values))
    at, most = 0, 0
    per = len(list(types.leaves(kind.of)))
    has_inner = any(item.kind in ('list', 'string') or item.type == kind.of for item in initial.items) or per == 1
    if any(item.places for item in initial.items) or has_inner:
        for item in initial.items:
            at = item.places[0] if item.places else at
            at += 1
            most = max(most, at)
        return Array(kind.of, most)
    return Array(kind.of, -(-len(initial.items) // per))
