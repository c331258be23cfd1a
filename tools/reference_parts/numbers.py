"""The nine types of whole numbers, their conversions and operators, and the built-in functions on them."""

BITS = {'bool': 8, 'char': 8, 'uchar': 8, 'short': 16, 'ushort': 16, 'int': 32, 'uint': 32, 'long': 64, 'ulong': 64}
SIGNED = {'char', 'short', 'int', 'long'}
SIZE = {name: bits // 8 for name, bits in BITS.items()}
UNSIGNED_OF = {'char': 'uchar', 'short': 'ushort', 'int': 'uint', 'long': 'ulong',
               'uchar': 'uchar', 'ushort': 'ushort', 'uint': 'uint', 'ulong': 'ulong'}
SIGNED_OF = {'uchar': 'char', 'ushort': 'short', 'uint': 'int', 'ulong': 'long',
             'char': 'char', 'short': 'short', 'int': 'int', 'long': 'long'}
COMPARISONS = {'==', '!=', '<', '>', '<=', '>='}
SHIFTS = ('<<', '>>')
ARITHMETIC = ['+', '-', '*', '/', '%', '&', '|', '^', '<<', '>>', '==', '!=', '<', '>', '<=', '>=']
# How many arguments each built-in function takes.
BUILT_IN = {'abs': 1, 'abs_diff': 2, 'min': 2, 'max': 2, 'clamp': 3, 'add_sat': 2, 'sub_sat': 2, 'hadd': 2,
            'rhadd': 2, 'mul_hi': 2, 'rotate': 2, 'clz': 1, 'popcount': 1}


def least(name):
    """The least value of a type."""
    return -(1 << (BITS[name] - 1)) if name in SIGNED else 0


def largest(name):
    """The largest value of a type."""
    if name == 'bool':
        return 1
    return (1 << (BITS[name] - 1)) - 1 if name in SIGNED else (1 << BITS[name]) - 1


def wrapper(name):
    """The function that converts any whole number to a type."""
    if name == 'bool':
        return lambda value: 1 if value else 0
    mask = (1 << BITS[name]) - 1
    if name in SIGNED:
        half = 1 << (BITS[name] - 1)
        return lambda value: ((value + half) & mask) - half
    return lambda value: value & mask


WRAP = {name: wrapper(name) for name in BITS}


def is_number(found):
    """Whether a type is one of the nine types of numbers."""
    return isinstance(found, str) and found in BITS


def promoted(name):
    """The type to which a value is promoted."""
    return 'int' if name == 'bool' or BITS[name] < 32 else name


def common(left, right):
    """The type to which two operands are brought."""
    left, right = promoted(left), promoted(right)
    if left == right:
        return left
    if (left in SIGNED) == (right in SIGNED):
        return left if BITS[left] > BITS[right] else right
    unsigned, signed = (left, right) if right in SIGNED else (right, left)
    return unsigned if BITS[unsigned] >= BITS[signed] else signed


def holds_all(want, have):
    """Whether a type has all values of another."""
    return least(want) <= least(have) and largest(have) <= largest(want)


def quotient(left, right):
    """The quotient, cut towards zero; 0 where the divisor is 0."""
    if right == 0:
        return 0
    size = abs(left) // abs(right)
    return -size if (left < 0) != (right < 0) else size


def remainder(left, right):
    """What the quotient leaves; the left side where the divisor is 0."""
    return left if right == 0 else left - quotient(left, right) * right


def operator_of(mark, name):
    """The operator on two values of a type. The right operand of a shift may be any number."""
    wrap = WRAP[name]
    amount = BITS[name] - 1
    return {
        '+': lambda a, b: wrap(a + b), '-': lambda a, b: wrap(a - b), '*': lambda a, b: wrap(a * b),
        '/': lambda a, b: wrap(quotient(a, b)), '%': lambda a, b: wrap(remainder(a, b)),
        '&': lambda a, b: wrap(a & b), '|': lambda a, b: wrap(a | b), '^': lambda a, b: wrap(a ^ b),
        '<<': lambda a, b: wrap(a << (b & amount)), '>>': lambda a, b: wrap(a >> (b & amount)),
        '==': lambda a, b: 1 if a == b else 0, '!=': lambda a, b: 1 if a != b else 0,
        '<': lambda a, b: 1 if a < b else 0, '>': lambda a, b: 1 if a > b else 0,
        '<=': lambda a, b: 1 if a <= b else 0, '>=': lambda a, b: 1 if a >= b else 0,
    }[mark]


OPERATORS = {(mark, name): operator_of(mark, name) for mark in ARITHMETIC for name in BITS}


def rotated(name, value, amount):
    """The bits of a value, rotated left."""
    bits = BITS[name]
    mask = (1 << bits) - 1
    pattern, amount = value & mask, amount & (bits - 1)
    return WRAP[name](((pattern << amount) | (pattern >> (bits - amount))) & mask) if amount else value


# Each takes the type in which it is computed and the arguments, which have that type.
FUNCTIONS = {
    'abs': lambda name, a: abs(a[0]),
    'abs_diff': lambda name, a: abs(a[0] - a[1]),
    'min': lambda name, a: min(a[0], a[1]),
    'max': lambda name, a: max(a[0], a[1]),
    'clamp': lambda name, a: min(max(a[0], a[1]), a[2]),
    'add_sat': lambda name, a: max(least(name), min(largest(name), a[0] + a[1])),
    'sub_sat': lambda name, a: max(least(name), min(largest(name), a[0] - a[1])),
    'hadd': lambda name, a: WRAP[name]((a[0] + a[1]) >> 1),
    'rhadd': lambda name, a: WRAP[name]((a[0] + a[1] + 1) >> 1),
    'mul_hi': lambda name, a: WRAP[name]((a[0] * a[1]) >> BITS[name]),
    'rotate': lambda name, a: rotated(name, a[0], a[1]),
    'clz': lambda name, a: BITS[name] - (a[0] & ((1 << BITS[name]) - 1)).bit_length(),
    'popcount': lambda name, a: bin(a[0] & ((1 << BITS[name]) - 1)).count('1'),
}


def built_in(function, name, arguments):
    """The value of a built-in function."""
    return FUNCTIONS[function](name, arguments)
