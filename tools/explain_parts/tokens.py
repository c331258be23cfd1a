"""The tokens of a source, as docs/LANGUAGE.md cuts them, and what macros without parameters leave of them.

A source is read as Latin-1, so that columns count bytes, as the program counts them."""
import re

MARKS = sorted('{ } ( ) [ ] ; , . : ? ~ ! = == != < > <= >= << >> <<= >>= + - * / % & | ^ && || ++ -- += -= *= /= '
               '%= &= |= ^= #'.split(), key=len, reverse=True)
TOKEN = re.compile(r'(?P<blank>[ \t\v\f\r\n]+|\\\r?\n|//[^\n]*|/\*.*?(?:\*/|\Z))|(?P<name>[A-Za-z_]\w*)'
                   r'|(?P<number>[0-9][\w.]*)|(?P<mark>%s)|(?P<bad>.)' % '|'.join(map(re.escape, MARKS)), re.S | re.A)
CLOSING = {'(': ')', '[': ']', '{': '}'}
# The names that have a replacement from the start.
FROM_START = {
    'CHAR_BIT': '8', 'SCHAR_MAX': '127', 'CHAR_MAX': '127', 'SCHAR_MIN': '(-127 - 1)', 'CHAR_MIN': '(-127 - 1)',
    'SHRT_MAX': '32767', 'SHRT_MIN': '(-32767 - 1)', 'INT_MAX': '2147483647', 'INT_MIN': '(-2147483647 - 1)',
    'LONG_MAX': '0x7fffffffffffffffL', 'LONG_MIN': '(-0x7fffffffffffffffL - 1)', 'UCHAR_MAX': '255',
    'USHRT_MAX': '65535', 'UINT_MAX': '0xffffffff', 'ULONG_MAX': '0xffffffffffffffffUL'}
# More tokens than this are refused as E206, so no more are made.
MOST = 65536


class Token:
    """A token: what it is, its text, where it begins, and whether it is the first of its line."""
    __slots__ = ('kind', 'text', 'line', 'column', 'start', 'is_first', 'macro')

    def __init__(self, kind, text, line, column, start, is_first):
        self.kind, self.text, self.line, self.column = kind, text, line, column
        self.start, self.is_first, self.macro = start, is_first, None

    def at(self):
        """Its place, as it is printed."""
        return '%d:%d' % (self.line, self.column)

    def placed(self, other, macro):
        """The same token in the place of another, which is the use of a macro."""
        copy = Token(self.kind, self.text, other.line, other.column, other.start, False)
        copy.macro = macro
        return copy


def cut(text):
    """The tokens of a text."""
    found, line, begin, is_first = [], 1, 0, True
    for match in TOKEN.finditer(text):
        kind, word = match.lastgroup, match.group()
        if kind == 'blank':
            is_first = is_first or '\n' in word and not word.startswith(('/', '\\'))
        else:
            found.append(Token(kind, word, line, match.start() - begin + 1, match.start(), is_first))
            is_first = False
        if '\n' in word:
            line += word.count('\n')
            begin = match.start() + word.rindex('\n') + 1
    return found


def words_of(text):
    """The tokens of the replacement of a name."""
    return [token for token in cut(text)]


class Expansion:
    """What is left of the tokens of a source behind its directives: `tokens`; `macros` are the names at its end."""

    def __init__(self, tokens, given=None):
        self.macros = {name: words_of(text) for name, text in FROM_START.items()}
        self.macros.update({name: words_of(str(value)) for name, value in (given or {}).items()})
        self.tokens, self.places, self.taken = [], {}, []
        at = 0
        while at < len(tokens) and len(self.tokens) <= MOST:
            if tokens[at].text == '#' and tokens[at].is_first:
                end = at + 1
                while end < len(tokens) and not tokens[end].is_first:
                    end += 1
                self.direct(tokens[at + 1:end])
                at = end
            else:
                if all(self.taken):
                    self.put(tokens[at], tokens[at], ())
                at += 1

    def direct(self, words):
        """Follows one directive."""
        what = words[0].text if words else ''
        name = words[1].text if len(words) > 1 else ''
        if what in ('ifdef', 'ifndef'):
            self.taken.append((name in self.macros) == (what == 'ifdef'))
        elif what == 'else' and self.taken:
            self.taken[-1] = not self.taken[-1]
        elif what == 'endif' and self.taken:
            self.taken.pop()
        elif what == 'define' and name and all(self.taken):
            self.macros[name], self.places[name] = words[2:], words[1]
        elif what == 'undef' and all(self.taken):
            self.macros.pop(name, None)

    def put(self, token, place, inside):
        """Puts a token, or what it is replaced by, in the place of the token of the text."""
        if len(self.tokens) > MOST:
            return
        if token.kind == 'name' and token.text in self.macros and token.text not in inside:
            for word in self.macros[token.text]:
                self.put(word, place, (*inside, token.text))
        else:
            self.tokens.append(token.placed(place, place.text) if inside else token)


def matching(tokens, at):
    """The index of the bracket that closes the one at this index, or the number of tokens."""
    open_brackets = []
    for index in range(at, len(tokens)):
        text = tokens[index].text
        if text in CLOSING:
            open_brackets.append(CLOSING[text])
        elif open_brackets and text == open_brackets[-1]:
            open_brackets.pop()
            if not open_brackets:
                return index
    return len(tokens)


def index_at(tokens, line, column):
    """The index of the first token that stands at this place or behind it."""
    for index, token in enumerate(tokens):
        if (token.line, token.column) >= (line, column):
            return index
    return len(tokens)


def spelled(tokens):
    """The tokens as one text, as one would write them."""
    out = ''
    for token in tokens:
        is_first = not out or out[-1] in '([.~!'
        glued = is_first or token.text in ')];,.' or token.text in '([' and out[-1] not in '=+-*/%,'
        out += token.text if glued else ' ' + token.text
    return re.sub(r'\* (?=\w+$)', '*', out)
