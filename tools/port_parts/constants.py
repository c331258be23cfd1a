"""The value of an expression of constants."""
import re

from . import types
from .notes import Refused
from .tree import stripped

WHOLE = re.compile(r'(0[xX][0-9a-fA-F]+|0[bB][01]+|[0-9]+)([uUlL]*)$')


def wrapped(value, name):
    """The value in a type."""
    if name == 'bool':
        return int(value != 0)
    bits = 8 * types.SIZES[name]
    value &= (1 << bits) - 1
    return value - (1 << bits) if types.is_signed(name) and value >> (bits - 1) else value


def number(token):
    """The value and the type of a number; of one with a point the type is a float."""
    found = WHOLE.match(token.text)
    if not found:
        return fraction(token)
    digits, suffix = found[1].lower(), found[2].lower()
    if suffix not in ('', 'u', 'l', 'ul', 'lu', 'll', 'ull', 'llu'):
        raise Refused(token, 'the number %s' % token.text)
    is_decimal = digits[0] != '0' or digits == '0'
    value = int(digits, 0) if is_decimal or digits[1] in 'xb' else int(digits, 8)
    names = ['int', 'uint', 'long', 'ulong']
    if 'u' in suffix:
        names = ['uint', 'ulong']
    elif is_decimal:
        names = ['int', 'long']
    if 'l' in suffix:
        names = [name for name in names if name in ('long', 'ulong')]
    for name in names:
        if wrapped(value, name) == value:
            return value, types.Scalar(name)
    raise Refused(token, 'the number %s fits no type' % token.text)


def fraction(token):
    """The value and the type of a number with a point or an exponent."""
    text = token.text.lower()
    kind = 'double'
    if text.endswith('f') and not text.startswith('0x'):
        text, kind = text[:-1], 'float'
    try:
        return (float.fromhex(text) if text.startswith('0x') else float(text)), types.Other(kind)
    except ValueError:
        raise Refused(token, 'the number %s' % token.text) from None


def text_of(value, kind):
    """How a value is written so that it has the type, or the type that this is promoted to."""
    name = types.promoted(kind).name
    if value < 0:
        least = -1 << (8 * types.SIZES[name] - 1)
        if value == least:
            return '(%s - 1)' % text_of(value + 1, kind)[1:-1] if name == 'int' else '(-%dL - 1)' % (-value - 1)
        return '(-%d%s)' % (-value, 'L' if name == 'long' else '')
    if name == 'int':
        return '%d' % value
    return '%d%s' % (value, {'uint': 'U', 'long': 'L', 'ulong': 'UL'}[name])


def divided(left, right):
    """The quotient cut towards zero."""
    quotient = abs(left) // abs(right)
    return -quotient if (left < 0) != (right < 0) else quotient


ARITHMETIC = {'+': lambda a, b: a + b, '-': lambda a, b: a - b, '*': lambda a, b: a * b, '&': lambda a, b: a & b,
              '|': lambda a, b: a | b, '^': lambda a, b: a ^ b, '/': divided,
              '%': lambda a, b: a - divided(a, b) * b}
ORDER = {'==': lambda a, b: a == b, '!=': lambda a, b: a != b, '<': lambda a, b: a < b, '<=': lambda a, b: a <= b,
         '>': lambda a, b: a > b, '>=': lambda a, b: a >= b}


def binary(op, left, right, kind):
    """The value of an operator on two constants, or None."""
    if op == '&&':
        return int(left[0] != 0 and right[0] != 0)
    if op == '||':
        return int(left[0] != 0 or right[0] != 0)
    if op in ('<<', '>>'):
        amount = right[0] & (8 * types.SIZES[kind.name] - 1)
        return wrapped(left[0] << amount if op == '<<' else left[0] >> amount, kind.name)
    shared = types.common(left[1], right[1])
    values = wrapped(left[0], shared.name), wrapped(right[0], shared.name)
    if op in ORDER:
        return int(ORDER[op](*values))
    if op in ('/', '%') and values[1] == 0:
        return None
    return wrapped(ARITHMETIC[op](*values), shared.name) if op in ARITHMETIC else None


def constant(node):
    """The value of an expression as (value, type), or None where it is not one of constants alone."""
    node = stripped(node)
    if node.kind == 'number':
        return (node.value, node.type) if types.is_number(node.type) else None
    if node.kind == 'name' and node.symbol is not None and node.symbol.kind == 'enumerator':
        return node.symbol.value, node.symbol.type
    if node.kind == 'sizeof':
        return node.value, types.ULONG
    if node.kind == 'cast' and types.is_number(node.type):
        inner = constant(node.operand)
        return inner and (wrapped(inner[0], node.type.name), node.type)
    if node.kind == 'unary' and node.op.text in '-+~!':
        inner = constant(node.operand)
        if inner is None:
            return None
        value = {'-': -inner[0], '+': inner[0], '~': ~inner[0], '!': int(inner[0] == 0)}[node.op.text]
        return wrapped(value, node.type.name), node.type
    if node.kind == 'binary':
        left, right = constant(node.left), constant(node.right)
        if left is None or right is None or not types.is_number(node.type):
            return None
        value = binary(node.op.text, left, right, node.type)
        return None if value is None else (value, node.type)
    if node.kind == 'choose':
        test, yes, no = constant(node.test), constant(node.yes), constant(node.no)
        if test is None or yes is None or no is None:
            return None
        return wrapped((yes if test[0] else no)[0], node.type.name), node.type
    return None
