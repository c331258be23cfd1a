"""What is said of an end: findings, each with the place that it speaks of where it has one."""
import difflib


class Finding:
    """A sentence, and the file, the line and the column that it speaks of; `marked` shows the line with a mark."""

    def __init__(self, text, file=None, line=None, column=None, marked=False):
        self.text, self.file, self.line, self.column, self.marked = text, file, line, column, marked

    def spoken(self):
        """The sentence behind its place."""
        parts = [str(part) for part in (self.file, self.line, self.column) if part is not None]
        return '%s: %s' % (':'.join(parts), self.text) if parts else self.text

    def as_json(self):
        """The finding as a JSON object."""
        return {'text': self.text, 'file': self.file, 'line': self.line, 'column': self.column}


def near(name, names):
    """The names that are spelled most like this one, the nearest first."""
    wanted = {one.lower(): one for one in sorted(set(names)) if one != name}
    return [wanted[one] for one in difflib.get_close_matches(name.lower(), wanted, 2, 0.66)]


def said_near(name, names):
    """The nearest name as a sentence that begins with a blank, or nothing."""
    found = near(name, names)
    return ' Near it: `%s`.' % '`, `'.join(found) if found else ''


def listed(words, joint='and'):
    """The words as one list of English."""
    words = list(words)
    if len(words) < 2:
        return ''.join(words)
    return '%s %s %s' % (', '.join(words[:-1]), joint, words[-1])


def counted(number, noun):
    """A number with its noun."""
    return '%d %s%s' % (number, noun, '' if number == 1 else 's')
