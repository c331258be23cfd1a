"""Buffers as numbers, and how two of them differ."""
import struct

FORMATS = {'char': 'b', 'uchar': 'B', 'bool': 'B', 'short': 'h', 'ushort': 'H', 'int': 'i', 'uint': 'I', 'long': 'q',
           'ulong': 'Q'}
MOST_SHOWN = 3


def numbers_of(content, kind):
    """The numbers of a type that bytes are; bytes behind the last whole one are left out."""
    size = struct.calcsize(FORMATS[kind])
    return struct.unpack('<%d%s' % (len(content) // size, FORMATS[kind]), content[:len(content) // size * size])


def kind_for(content, kind):
    """The type that a buffer is shown in: the one that is known, or int, or uchar where the length is none of ints."""
    if kind in FORMATS:
        return kind
    return 'int' if len(content) % 4 == 0 else 'uchar'


def difference(name, wanted, found, kind=None):
    """What differs between two buffers, in a line, or nothing."""
    if wanted == found:
        return None
    if found is None:
        return '%s: not saved' % name
    if len(wanted) != len(found):
        return '%s: %d bytes expected, %d found' % (name, len(wanted), len(found))
    kind = kind_for(wanted, kind)
    pairs = list(zip(numbers_of(wanted, kind), numbers_of(found, kind)))
    places = [at for at, (here, there) in enumerate(pairs) if here != there]
    if not places:
        return '%s: bytes behind the last %s differ' % (name, kind)
    shown = ['%s[%d]: %d expected, %d found' % (name, at, *pairs[at]) for at in places[:MOST_SHOWN]]
    return '%s; %d of %d differ' % ('; '.join(shown), len(places), len(pairs))
