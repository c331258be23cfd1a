"""Numbers and the bytes of buffers: types, and where numbers come from."""
import array
import ast
import csv
import json
import random
import re
import struct
import sys

CODES = {'char': 'b', 'uchar': 'B', 'short': 'h', 'ushort': 'H', 'int': 'i', 'uint': 'I', 'long': 'q', 'ulong': 'Q'}
VECTOR = re.compile(r'(u?(?:char|short|int|long))(2|4|8|16)?\Z')
NUMPY = re.compile(r'([<>|=])([iub])([1248])\Z')


class Wrong(Exception):
    """What is wrong with the words, a file or a number."""


class Type:
    """A type of elements: its name, how many numbers an element has, and the range of these."""

    def __init__(self, name):
        match = VECTOR.match(name)
        if not match:
            raise Wrong('%s is no type: there are %s, and vectors of them as int4' % (name, ', '.join(CODES)))
        self.name, self.base, self.parts = name, match[1], int(match[2] or 1)
        self.code = CODES[self.base]
        self.width = array.array(self.code).itemsize
        bits = 8 * self.width
        self.low, self.high = (0, (1 << bits) - 1) if self.base[0] == 'u' else (-1 << bits - 1, (1 << bits - 1) - 1)

    def packed(self, numbers):
        """The bytes of numbers, which have to lie in the range."""
        for at, number in enumerate(numbers):
            if not self.low <= number <= self.high:
                raise Wrong('number %d is %d, and no %s: %d to %d' % (at, number, self.base, self.low, self.high))
        if len(numbers) % self.parts:
            raise Wrong('%d numbers are no whole number of %s' % (len(numbers), self.name))
        return in_order(array.array(self.code, numbers)).tobytes()

    def unpacked(self, content):
        """The numbers of the bytes; a rest that is no number is left out."""
        numbers = array.array(self.code)
        numbers.frombytes(content[:len(content) // self.width * self.width])
        return in_order(numbers)


def in_order(numbers):
    """The same numbers with the lowest byte first, where the machine has it last."""
    if sys.byteorder == 'big':
        numbers.byteswap()
    return numbers


def whole(text, where):
    """The whole number that a text spells: decimal, or 0x and hexadecimal digits."""
    try:
        return int(text.strip(), 16 if re.match(r'\s*[-+]?0[xX]', text) else 10)
    except ValueError:
        raise Wrong('%s: "%s" is no whole number' % (where, text.strip())) from None


def of_words(words):
    """Numbers that are given as words; one word `-` stands for those on standard input."""
    if words == ['-']:
        words = sys.stdin.read().replace(',', ' ').split()
    return [whole(word, 'number %d' % at) for at, word in enumerate(words)]


def of_csv(name, delimiter=',', skip=0):
    """The numbers of a file of values with commas, row by row; empty cells are left out."""
    numbers = []
    with open(name, encoding='utf-8-sig', newline='') as file:
        for row, cells in enumerate(csv.reader(file, delimiter=delimiter)):
            if row >= skip:
                numbers += [whole(cell, '%s, line %d, column %d' % (name, row + 1, at + 1))
                            for at, cell in enumerate(cells) if cell.strip()]
    return numbers


def of_json(name):
    """The numbers of a JSON list, of lists in it too."""
    with open(name, encoding='utf-8-sig') as file:
        try:
            value = json.load(file)
        except ValueError as error:
            raise Wrong('%s: %s' % (name, error)) from None
    numbers = []

    def add(one):
        if isinstance(one, list):
            for part in one:
                add(part)
        elif isinstance(one, int) and not isinstance(one, bool):
            numbers.append(one)
        else:
            raise Wrong('%s: %s is no whole number' % (name, json.dumps(one)[:40]))
    add(value)
    return numbers


def of_npy(name):
    """The numbers of a file of numpy.save, in the order of C."""
    with open(name, 'rb') as file:
        content = file.read()
    if content[:6] != b'\x93NUMPY' or len(content) < 12:
        raise Wrong('%s is no .npy file' % name)
    begin = 10 if content[6] == 1 else 12
    length = struct.unpack('<H' if begin == 10 else '<I', content[8:begin])[0]
    try:
        head = ast.literal_eval(content[begin:begin + length].decode('latin-1').strip())
        kind, shape, is_fortran = NUMPY.match(str(head['descr'])), head['shape'], head['fortran_order']
    except (ValueError, SyntaxError, KeyError, TypeError):
        raise Wrong('%s has no head of a .npy file' % name) from None
    if not kind:
        raise Wrong('%s has elements of %s, which are no whole numbers' % (name, head['descr']))
    if is_fortran and len(shape) > 1:
        raise Wrong('%s is in the order of Fortran: save numpy.ascontiguousarray of it' % name)
    code = {'1': 'b', '2': 'h', '4': 'i', '8': 'q'}[kind[3]]
    numbers = array.array(code.upper() if kind[2] in 'ub' else code)
    rest = content[begin + length:]
    numbers.frombytes(rest[:len(rest) // numbers.itemsize * numbers.itemsize])
    if (kind[1] == '>') == (sys.byteorder == 'little') and kind[1] != '|':
        numbers.byteswap()
    count = 1
    for size in shape:
        count *= size
    if len(numbers) < count:
        raise Wrong('%s ends behind %d of %d elements' % (name, len(numbers), count))
    return list(numbers[:count])


def ramp(count, first, step):
    """So many numbers from the first on, each so much larger than the one before it."""
    return [first + at * step for at in range(count)]


def at_random(count, seed, low, high):
    """So many numbers between two bounds, both included: the same ones for the same seed."""
    if low > high:
        raise Wrong('%d is above %d' % (low, high))
    numbers = random.Random(seed)
    return [numbers.randint(low, high) for _ in range(count)]
