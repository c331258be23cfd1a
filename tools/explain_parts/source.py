"""A source as it was given: its bytes, its tokens, what macros leave of them, and its functions."""
import os
import re

from explain_parts import page, tokens as cutting
from explain_parts.findings import Finding
from explain_parts.unit import Unit

BYTE_ORDER_MARKS = [(b'\xef\xbb\xbf', 'a byte order mark (EF BB BF), which is no part of the text: save the file as '
                     'UTF-8 without one, or take it away by `sed -i "1s/^\\xEF\\xBB\\xBF//" %s`'),
                    (b'\xff\xfe', 'the mark of UTF-16 (FF FE): save the file as UTF-8'),
                    (b'\xfe\xff', 'the mark of UTF-16 (FE FF): save the file as UTF-8')]
OTHER_BYTES = {'\\': 'A backslash stands at the end of a line alone.'}


class Source:
    """A source that can be read; `given` are the names that the launch file gives with it."""

    def __init__(self, name, given):
        self.name = name
        with open(name, 'rb') as file:
            self.bytes = file.read()
        self.text = self.bytes.decode('latin-1')
        self.raw = cutting.cut(self.text)
        self.expansion = cutting.Expansion(self.raw, given)
        self.tokens = self.expansion.tokens
        self.unit = Unit(self.tokens)

    def shown(self, line, column):
        """A line of the source, and below it a mark at the column, which counts bytes; or nothing."""
        lines = self.bytes.split(b'\n')
        if not 0 < line <= len(lines):
            return ''
        text = lines[line - 1]
        if line == 1:
            text = text.removeprefix(b'\xef\xbb\xbf')
        before = text[:column - 1].decode('utf-8', 'replace')
        below = ''.join(c if c == '\t' else ' ' for c in before)
        return '%s\n%s^' % (text.decode('utf-8', 'replace').rstrip('\r'), below)


def opened(name, given):
    """The source of this name, or None where it is no file or cannot be read."""
    if not name or not os.path.isfile(name):
        return None
    try:
        return Source(name, given)
    except OSError:
        return None


def no_token(source, line, column):
    """What is said of E101: which byte it is."""
    for mark, text in BYTE_ORDER_MARKS:
        if source.bytes.startswith(mark) and (line, column) == (1, 1):
            return [Finding('The file begins with ' + (text % source.name if '%s' in text else text) + '.')]
    lines = source.bytes.split(b'\n')
    rest = lines[line - 1][column - 1:] if line <= len(lines) else b''
    if not rest:
        return []
    byte = rest[:1].decode('latin-1')
    if ord(byte) > 126 or ord(byte) < 32:
        character = next((rest[:count].decode('utf-8') for count in range(1, 5) if is_utf8(rest[:count])), None)
        shown = ' of `%s`' % character if character and character.isprintable() else ''
        return [Finding('The byte %02X%s: outside of comments a source has ASCII alone.' % (ord(byte), shown))]
    if byte in '"\'':
        return [quoted(source, rest.decode('latin-1'), cutting.index_at(source.raw, line, column))]
    return [Finding(OTHER_BYTES.get(byte, '`%s` stands nowhere in a source.' % byte))]


def quoted(source, rest, at):
    """What is said of a quote: what it begins."""
    before = [token.text for token in source.raw[max(at - 2, 0):at]]
    if rest[0] == '"' and 'include' in before:
        return Finding('The directive `#include` is not taken. %s' % by_preprocessor(source, 'include'))
    if rest[0] == '"' and 'printf' in before:
        return Finding('`printf` stands nowhere in the subset. %s' % (page.row_of('printf') or ''))
    if rest[0] == '"':
        return Finding('A string stands nowhere in the subset.')
    character = re.match(r"'([^'\\\n])'", rest)
    value = ' `%s` is the number %d.' % (character[0], ord(character[1])) if character else ''
    return Finding('A character stands nowhere in the subset.%s %s' % (value, page.row_of('character') or ''))


def by_preprocessor(source, case):
    """That the C preprocessor does it, with the row of docs/PORTING.md."""
    row = page.row_of(case) if case else None
    return 'The C preprocessor does it: `cpp -P %s > plain.cl`.%s' % (source.name, ' ' + row if row else '')


def is_utf8(text):
    """Whether bytes are whole UTF-8."""
    try:
        text.decode('utf-8')
        return True
    except UnicodeDecodeError:
        return False


def directive(source, line, column):
    """What is said of E201: which directive it is, and its row of docs/PORTING.md."""
    at = cutting.index_at(source.raw, line, column)
    words = [token.text for token in source.raw[at:at + 4]]
    if len(words) < 2:
        return []
    what = words[1]
    case = {'if': 'condition', 'elif': 'condition', 'include': 'include', 'define': 'macro_with_parameters'}.get(what)
    text = 'The macro `%s` has parameters.' % words[2] if what == 'define' and len(words) > 2 else \
        'The directive `#%s` is not taken.' % what
    return [Finding('%s %s' % (text, by_preprocessor(source, case)))]


def malformed_number(source, line, column):
    """What is said of E103: the number, and what to write."""
    at = cutting.index_at(source.raw, line, column)
    if at >= len(source.raw):
        return []
    word = source.raw[at].text
    if re.match(r'(0[xX][0-9a-fA-F]+|[0-9]+)[uU]?[lL]{2}[uU]?\Z', word):
        return [Finding('`%s`: there is no suffix of two `l`. %s' % (word, page.row_of('suffix_ll') or ''))]
    if re.match(r'0[bB][01]+', word):
        return [Finding('`%s`: %s' % (word, page.row_of('binary_number') or 'there are no binary numbers.'))]
    if '.' in word or re.match(r'[0-9]+[eE]', word) or re.match(r'[0-9]+[fF]\Z', word):
        return [Finding('`%s`: the subset has whole numbers alone.' % word)]
    if re.match(r'0[0-9]+[uUlL]*\Z', word):
        return [Finding('`%s` begins with 0, so it is octal, and has a digit above 7.' % word)]
    return [Finding('`%s` is no whole number.' % word)]
