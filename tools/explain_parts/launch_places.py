"""Where each key of a launch file stands: what tomllib reads has no places, so the text is read again for them.

The text is a TOML document already, so only its keys, its tables and the ends of its values are looked for."""
import re

BARE = re.compile(r'[A-Za-z0-9_-]+')
BLANKS = re.compile(r'(?:[ \t\r\n]+|#[^\n]*)*')
INLINE = re.compile(r'[ \t]*')
STRING = re.compile(r'"""(?:\\.|[^\\])*?"{3,5}|\'\'\'.*?\'{3,5}|"(?:\\.|[^"\\\n])*"|\'[^\'\n]*\'', re.S)
PLAIN = re.compile(r'[^,\]}\n#]+')


class Places:
    """`found` has the line and the column of each table and of each key, by its path of names and numbers."""

    def __init__(self, text):
        self.text, self.at, self.found, self.counts = text, 0, {}, {}
        self.heads, self.table = set(), ()
        self.read()

    def line(self, *path):
        """The line of a path, or None."""
        return self.found.get(path, (None, None))[0]

    def last_line(self, *path):
        """The last line on which a table or one of its own keys stands; for () that of the last key of the top."""
        own = [place for other, place in self.found.items()
               if other[:len(path)] == path and len(other) <= len(path) + 1 and not self.is_table(other, path)]
        return max(own)[0] if own else None

    def is_table(self, other, path):
        """Whether the path below another is a table with a head of its own, which is no key of that other."""
        return other != path and (other in self.counts or other in self.heads)

    def place(self, offset):
        """The line and the column of an offset."""
        return self.text.count('\n', 0, offset) + 1, offset - self.text.rfind('\n', 0, offset)

    def skip(self, pattern):
        """Goes on behind what the pattern finds here."""
        self.at = pattern.match(self.text, self.at).end()

    def read(self):
        """Reads the document."""
        self.skip(BLANKS)
        while self.at < len(self.text):
            if self.text[self.at] == '[':
                self.head()
            else:
                self.pair(self.table)
            self.skip(BLANKS)

    def head(self):
        """Reads the head of a table."""
        start, is_array = self.at, self.text.startswith('[[', self.at)
        self.at += 2 if is_array else 1
        names, path = self.key(), ()
        self.at += 2 if is_array else 1
        for index, name in enumerate(names):
            path += (name,)
            is_last = index == len(names) - 1
            if is_last and is_array:
                self.counts[path] = self.counts.get(path, -1) + 1
            if path in self.counts:
                self.found.setdefault(path, self.place(start))
                path += (self.counts[path],)
        self.found.setdefault(path, self.place(start))
        self.heads.add(path)
        self.table = path

    def key(self):
        """Reads a key, of one name or of several with points between them."""
        names = []
        while True:
            self.skip(INLINE)
            match = STRING.match(self.text, self.at) or BARE.match(self.text, self.at)
            if not match:
                return names
            word = match.group()
            names.append(word[1:-1] if word[0] in '"\'' else word)
            self.at = match.end()
            self.skip(INLINE)
            if not self.text.startswith('.', self.at):
                return names
            self.at += 1

    def pair(self, table):
        """Reads a key and its value in a table."""
        start = self.at
        path = table
        for name in self.key() or ['?']:
            path += (name,)
            self.found.setdefault(path, self.place(start))
        self.at += 1
        self.value(path)

    def value(self, path):
        """Reads a value, and the places of what stands in it."""
        self.skip(INLINE)
        first = self.text[self.at:self.at + 1]
        string = STRING.match(self.text, self.at)
        if string:
            self.at = string.end()
        elif first == '[':
            self.items(']', lambda number: self.element(path + (number,)))
        elif first == '{':
            self.items('}', lambda number: self.pair(path))
        else:
            match = PLAIN.match(self.text, self.at)
            self.at = match.end() if match else self.at + 1

    def element(self, path):
        """Reads an element of an array."""
        self.found[path] = self.place(self.at)
        self.value(path)

    def items(self, close, each):
        """Reads what stands between two brackets."""
        self.at += 1
        number = 0
        self.skip(BLANKS)
        while self.at < len(self.text) and self.text[self.at] != close:
            each(number)
            number += 1
            self.skip(BLANKS)
            if self.text.startswith(',', self.at):
                self.at += 1
                self.skip(BLANKS)
        self.at += 1
