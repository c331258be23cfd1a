"""Cuts a source into tokens."""
import re

from .numbers import largest
from .refusals import SourceRefused

MOST_BYTES = 262144
NAME = re.compile(r'[A-Za-z_][A-Za-z0-9_]*')
NUMBER = re.compile(r'[0-9][A-Za-z0-9_.]*')
SPELLED = re.compile(r'(0[xX][0-9a-fA-F]+|0[0-7]+|0|[1-9][0-9]*)([uU]?[lL]?|[lL][uU])\Z')
MARKS_OF_THREE = ('<<=', '>>=')
MARKS_OF_TWO = ('==', '!=', '<=', '>=', '<<', '>>', '&&', '||', '++', '--',
                '+=', '-=', '*=', '/=', '%=', '&=', '|=', '^=')
MARKS_OF_ONE = set('{}()[];,:?~!=<>+-*/%&|^.')


class Token:
    """A token: its kind, its word, where it starts and ends, and whether it is the first of its line."""

    __slots__ = ('kind', 'word', 'start', 'end', 'is_first')

    def __init__(self, kind, word, start, end, is_first):
        self.kind, self.word, self.start, self.end, self.is_first = kind, word, start, end, is_first

    def __repr__(self):
        return self.word


def types_of_suffix(suffix, is_decimal):
    """The types that a number with this suffix may have, in order."""
    if 'u' in suffix and 'l' in suffix:
        return ['ulong']
    if 'u' in suffix:
        return ['uint', 'ulong']
    if 'l' in suffix:
        return ['long'] if is_decimal else ['long', 'ulong']
    return ['int', 'long'] if is_decimal else ['int', 'uint', 'long', 'ulong']


def value_and_type(word):
    """The value and the type of a number, the type None where none holds it; None where it is no number."""
    found = SPELLED.match(word)
    if not found:
        return None
    digits, suffix = found.group(1), found.group(2).lower()
    is_decimal = False
    if digits[:2] in ('0x', '0X'):
        value = int(digits, 16)
    elif len(digits) > 1 and digits[0] == '0':
        value = int(digits, 8)
    else:
        value, is_decimal = int(digits), True
    for name in types_of_suffix(suffix, is_decimal):
        if value <= largest(name):
            return value, name
    return value, None


def place_of(source, at):
    """The line and the column of a byte."""
    return source.count('\n', 0, at) + 1, at - source.rfind('\n', 0, at)


def end_of_blank(source, at):
    """Where the blank or comment ends that begins here; the same place where none does."""
    letter = source[at]
    if letter in ' \t\v\f\r\n':
        return at + 1
    if letter == '\\':
        if source[at + 1:at + 2] == '\n':
            return at + 2
        return at + 3 if source[at + 1:at + 3] == '\r\n' else at
    if source.startswith('//', at):
        end = source.find('\n', at)
        return len(source) if end < 0 else end
    if source.startswith('/*', at):
        end = source.find('*/', at + 2)
        if end < 0:
            raise SourceRefused(102, *place_of(source, at))
        return end + 2
    return at


def word_at(source, at):
    """The kind and the word of the token that begins here."""
    found = NAME.match(source, at)
    if found:
        return 'Name', found.group()
    found = NUMBER.match(source, at)
    if found:
        read = value_and_type(found.group())
        if read is None:
            raise SourceRefused(103, *place_of(source, at))
        if read[1] is None:
            raise SourceRefused(104, *place_of(source, at))
        return 'Number', found.group()
    if source[at] == '#':
        return 'Hash', '#'
    if source[at:at + 3] in MARKS_OF_THREE:
        return 'Mark', source[at:at + 3]
    if source[at:at + 2] in MARKS_OF_TWO:
        return 'Mark', source[at:at + 2]
    if source[at] in MARKS_OF_ONE:
        return 'Mark', source[at]
    raise SourceRefused(101, *place_of(source, at))


def tokens_of(source):
    """The tokens of a source, which has one letter for each byte."""
    if len(source) > MOST_BYTES:
        raise SourceRefused(105, 1, 1)
    found, at, is_first = [], 0, True
    while at < len(source):
        end = end_of_blank(source, at)
        if end > at:
            is_first = is_first or source[at] == '\n'
            at = end
            continue
        kind, word = word_at(source, at)
        found.append(Token(kind, word, at, at + len(word), is_first))
        is_first = False
        at += len(word)
    return found


def kind_of(word):
    """The kind of a word that stands alone."""
    if word == '#':
        return 'Hash'
    if word[0].isdigit():
        return 'Number'
    return 'Name' if NAME.match(word) else 'Mark'
