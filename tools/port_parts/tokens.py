"""The tokens of C, cut from what the preprocessor left, each with its place in the source."""
import re

from .notes import Refused

MARKS = sorted('{ } ( ) [ ] ; , . : ? ~ ! = == != < > <= >= << >> <<= >>= + - * / % & | ^ && || ++ -- += -= *= /= %= '
               '&= |= ^= -> # ## ...'.split(), key=len, reverse=True)
TOKEN = re.compile(r'(?P<name>[A-Za-z_$][\w$]*)'
                   r'|(?P<number>\.?[0-9](?:[eEpP][+-]|[\w.])*)'
                   r"|(?P<char>'(?:\\.|[^'\\\n])*')"
                   r'|(?P<string>"(?:\\.|[^"\\\n])*")'
                   r'|(?P<mark>' + '|'.join(re.escape(mark) for mark in MARKS) + ')')
BLANKS = re.compile(r'[ \t\v\f\r]+')
LINE_MARK = re.compile(r'#\s*(?:line\s+)?(\d+)\s+"((?:\\.|[^"\\])*)"')
ESCAPES = {'n': 10, 't': 9, 'r': 13, 'a': 7, 'b': 8, 'f': 12, 'v': 11, '\\': 92, "'": 39, '"': 34, '?': 63}


class Token:
    """A token: its kind and text, the file and line in which it stands (`file` is None in the source itself), its
    column in what the preprocessor left, and whether a blank stands before it."""

    __slots__ = ('kind', 'text', 'file', 'line', 'column', 'is_apart')

    def __init__(self, kind, text, file, line, column, is_apart):
        self.kind, self.text, self.file, self.line = kind, text, file, line
        self.column, self.is_apart = column, is_apart

    def where(self):
        """The place in words."""
        return str(self.line) if self.file is None else '%s:%d' % (self.file, self.line)

    def __repr__(self):
        return self.text


def in_source(token, text):
    """A token of that text at the place of another."""
    return Token('made', text, token.file, token.line, token.column, token.is_apart)


def cut(text, name):
    """The tokens of what the preprocessor left of the source `name`, and the directives that it left."""
    found, left = [], []
    file, line = None, 1
    for content in text.split('\n'):
        mark = LINE_MARK.match(content)
        if mark:
            file, line = (None if mark[2] == name else mark[2]), int(mark[1])
            continue
        if content.lstrip().startswith('#'):
            left.append(Token('directive', content.strip(), file, line, 0, True))
        else:
            cut_line(content, file, line, found)
        line += 1
    return found, left


def cut_line(content, file, line, found):
    """Adds the tokens of one line."""
    at, is_apart = 0, True
    while at < len(content):
        blank = BLANKS.match(content, at)
        if blank:
            at, is_apart = blank.end(), True
            continue
        token = TOKEN.match(content, at)
        if not token:
            is_byte = '\udc80' <= content[at] <= '\udcff'
            what = 'the byte 0x%02X' % (ord(content[at]) & 0xFF) if is_byte else repr(content[at])
            raise Refused(Token('mark', content[at], file, line, at, True), 'no token of C: %s' % what)
        found.append(Token(token.lastgroup, token[0], file, line, at, is_apart))
        at, is_apart = token.end(), False


def characters(token):
    """The values of the characters of a character constant or a string, as signed bytes."""
    text, at, values = token.text[1:-1], 0, []
    while at < len(text):
        if text[at] != '\\':
            values += text[at].encode()
            at += 1
            continue
        octal = re.compile(r'\\([0-7]{1,3})').match(text, at)
        by_hex = re.compile(r'\\x([0-9a-fA-F]+)').match(text, at)
        if octal or by_hex:
            found = octal or by_hex
            values.append(int(found[1], 8 if octal else 16))
            at = found.end()
        elif text[at + 1] in ESCAPES:
            values.append(ESCAPES[text[at + 1]])
            at += 2
        else:
            raise Refused(token, 'the escape %s' % text[at:at + 2])
    if any(value > 255 for value in values):
        raise Refused(token, 'a character above 255')
    return [value - 256 if value > 127 else value for value in values]
