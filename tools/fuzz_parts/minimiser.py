"""Shrinks the source of a difference to a few lines.

What is left must still differ, and be a case: of a clean kernel one that the reference accepts and finds clean."""
from .programs import SOURCE

PLAIN = ('0', '1')


class Minimiser:
    """Shrinks the files of a case. `most` bounds how often the program is asked."""

    def __init__(self, look, files, most=2000):
        self.look, self.files, self.left = look, files, most

    def differs(self, text):
        """Whether the case still differs with this source."""
        if self.left <= 0:
            return False
        self.left -= 1
        try:
            return bool(self.look({**self.files, SOURCE: text.encode('latin-1')}))
        except Exception:  # a source that the reference cannot follow is no smaller case
            return False

    def run(self):
        """The files with the smallest source that was found."""
        text, before = self.files[SOURCE].decode('latin-1'), None
        while before != text:
            before = text
            text = '\n'.join(self.fewer(text.split('\n')))
            text = self.without_blocks(text)
            text = self.simpler(text)
        return {**self.files, SOURCE: text.encode('latin-1')}

    def fewer(self, lines):
        """Drops runs of lines, long ones first."""
        size = max(len(lines) // 2, 1)
        while size:
            at = 0
            while at < len(lines):
                shorter = lines[:at] + lines[at + size:]
                if self.differs('\n'.join(shorter)):
                    lines = shorter
                else:
                    at += size
            size //= 2
        return lines

    def without_blocks(self, text):
        """Drops what stands in front of braces with its braces, or the whole block."""
        at = 0
        while at < len(text):
            if text[at] == '{':
                end = closing(text, at, '{', '}')
                start = max(text.rfind(mark, 0, at) for mark in ';{}\n') + 1
                if end is not None:
                    inner = text[:start] + '{' + text[at + 1:]
                    gone = text[:start] + text[end + 1:]
                    if self.differs(gone):
                        text, at = gone, start
                        continue
                    if start < at and text[start:at].strip() and self.differs(inner):
                        text, at = inner, start
            at += 1
        return text

    def simpler(self, text):
        """Puts a number, or one of its own parts, in the place of an expression in parentheses."""
        at = 0
        while at < len(text):
            if text[at] == '(':
                end = closing(text, at, '(', ')')
                if end is not None:
                    text = self.simplest_at(text, at, end)
            at += 1
        return text

    def simplest_at(self, text, at, end):
        """The text with the expression between these places made simpler, where it can be."""
        choices = ['(%s)' % plain for plain in PLAIN if text[at + 1:end] not in PLAIN]
        inner = at + 1
        while inner < end:
            if text[inner] == '(':
                last = closing(text, inner, '(', ')')
                choices.append(text[inner:last + 1])
                inner = last
            inner += 1
        for choice in choices:
            shorter = text[:at] + choice + text[end + 1:]
            if len(shorter) < len(text) and self.differs(shorter):
                return shorter
        return text


def closing(text, at, opening, mark):
    """Where what opens here is closed, or None."""
    depth = 0
    for place in range(at, len(text)):
        depth += (text[place] == opening) - (text[place] == mark)
        if depth == 0:
            return place
    return None
