"""The text of the ported source: every token on the line on which it stood."""
import re

from .tokens import Token

BLANKS = re.compile(r'[ \t]+\n')
GLUED = set('+-&|<>=!*/%^#.:')


def flat(text):
    """The tokens and strings of a nested list, in their order."""
    if isinstance(text, (Token, str)):
        yield text
    elif text is not None:
        for part in text:
            yield from flat(part)


def plain(text):
    """A text as one string, without its lines."""
    page = Page()
    page.write(text, False)
    return ''.join(page.pieces)


def moved(text, token):
    """A text all of which stands where a token does."""
    return [token_at(token), plain(text)]


def token_at(token):
    """Nothing, at the line of a token."""
    return Token('made', '', token.file, token.line, token.column, token.is_apart)


class Page:
    """What has been written, and where tokens stand that are not on their own line."""

    def __init__(self):
        self.pieces, self.line, self.column, self.last, self.others = [], 1, 0, '', []
        self.last_mark = ''

    def write(self, text, keeps_lines=True):
        """Writes a text. What was made stands on the line of the token behind it, but for the ends of statements."""
        waiting = []
        for atom in flat(text):
            if not isinstance(atom, Token):
                waiting.append(atom)
                continue
            is_later = keeps_lines and atom.file is None and atom.line > self.line
            waiting = self.made(waiting, is_later)
            if is_later:
                self.put('\n' * (atom.line - self.line))
                self.put(' ' * atom.column)
                self.line, self.column, self.last = atom.line, atom.column, ' '
            self.made(waiting, False)
            waiting = []
            if atom.text:
                self.piece(atom.text, atom.is_apart)
                if keeps_lines and (atom.file is not None or atom.line != self.line):
                    self.others.append((self.line, self.column - len(atom.text) + 1, atom.file, atom.line))
        self.made(waiting, False)

    def made(self, pieces, is_later):
        """Writes pieces that have no line; where a new line comes, those behind the last end of a statement wait."""
        number = len(pieces)
        if is_later:
            ends = [at for at, piece in enumerate(pieces) if piece.rstrip()[-1:] in (';', '{', '}')]
            number = ends[-1] + 1 if ends else 0 if self.last_mark in (';', '{', '}') else number
        for piece in pieces[:number]:
            if piece:
                self.piece(piece, piece[0] not in ')]' and self.last == '=')
        return pieces[number:]

    def piece(self, content, is_apart):
        """Writes one piece, behind a blank where one is needed."""
        content = content.lstrip(' ') if self.last in ('', ' ', '\n') else content
        if not content:
            return
        if self.needs_blank(content, is_apart):
            self.put(' ')
            self.column += 1
        self.put(content)
        self.column += len(content)
        self.last_mark = content.rstrip()[-1:] or self.last_mark

    def put(self, content):
        """Writes characters."""
        self.pieces.append(content)
        self.last = content[-1:] or self.last

    def needs_blank(self, content, is_apart):
        """Whether a blank stands before the next piece."""
        if not self.last or self.last.isspace() or content[0] == ' ':
            return False
        both_words = (self.last.isalnum() or self.last == '_') and (content[0].isalnum() or content[0] == '_')
        return is_apart or both_words or self.last in GLUED and content[0] in GLUED or self.last in ',;'

    def text(self):
        """All that was written."""
        return BLANKS.sub('\n', ''.join(self.pieces)).strip(' ').rstrip() + '\n'

    def places(self):
        """The places that are not those of the source: line and column here, file and line there."""
        found = []
        for line, column, file, there in self.others:
            if not found or (found[-1][0], found[-1][2:]) != (line, (file, there)):
                found.append((line, column, file, there))
        return found
