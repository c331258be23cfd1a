"""Tables of cases that are one text each: sources, launch files and command lines, with what each comes to."""
import os
import re

from .calls import Check, call, status_fault
from .files import Room, difference, read, write

ROOT = os.path.dirname(os.path.dirname(os.path.dirname(os.path.realpath(__file__))))
ERRORS = os.path.join(ROOT, 'docs', 'ERRORS.md')
HEAD = re.compile(r'(accepted|usage|E\d+ \d+:\d+|L\d+)\b')
SAID = re.compile(r'wgcc: (?:k\.cl:(\d+:\d+): )?([EL]\d+|usage)\b')


def texts_of_numbers():
    """The text behind each number, by the headings of the page on errors."""
    return dict(re.findall(r'^## ([EL]\d+) (.*)$', read(ERRORS).decode(), re.M))


class Entry:
    """A row of a table: its line, the words in front of what it comes to, that, the words behind it, and its text."""

    def __init__(self, line, head):
        self.line, self.text = line, []
        found = HEAD.search(head)
        if not found:
            raise ValueError('no verdict')
        self.front, self.verdict = head[:found.start()].split(), found[1]
        self.behind = head[found.end():].split()

    def source(self):
        """The text: one line as it stands, several lines each with its end."""
        return self.text if isinstance(self.text, str) else ''.join(line + '\n' for line in self.text)


def entries_of(path):
    """The rows of a table. What is no row and no line of a text is an error."""
    entries = []
    for number, line in enumerate(read(path).decode().split('\n'), 1):
        if line == '|' or line.startswith('| '):
            if not entries or isinstance(entries[-1].text, str):
                raise SystemExit('%s:%d: a line of no row' % (path, number))
            entries[-1].text.append(line[2:])
        elif line and not line.startswith('#'):
            head, bar, text = line.partition(' | ')
            try:
                entries.append(Entry(number, head))
            except ValueError as error:
                raise SystemExit('%s:%d: %s' % (path, number, error)) from None
            if bar:
                entries[-1].text = text
    return entries


def wanted_line(verdict, texts):
    """The status and the line that a verdict stands for."""
    number, _, place = verdict.partition(' ')
    if number == 'accepted':
        return 0, None
    if number == 'usage':
        return 2, 'wgcc: usage\n'
    if number[0] == 'L':
        return 4, 'wgcc: %s %s\n' % (number, texts.get(number))
    return 3, 'wgcc: k.cl:%s: %s %s\n' % (place, number, texts.get(number))


def verdict_of(ended):
    """The verdict that a run came to, or None where it is none."""
    if ended.status == 0:
        return 'accepted'
    found = SAID.match(ended.err.decode(errors='replace'))
    if not found:
        return None
    return '%s %s' % (found[2], found[1]) if found[1] else found[2]


class Table:
    """A table, whose folder says what its texts are."""

    def __init__(self, name, path):
        self.name, self.path = name, path
        self.entries = entries_of(path)
        self.texts = texts_of_numbers()

    def beside(self, ending):
        """The file beside the table with its name, or that of all tables of the folder."""
        own = self.path[:-len('.txt')] + ending
        return read(own if os.path.exists(own) else os.path.join(os.path.dirname(self.path), 'k' + ending))

    def checks(self, programs):
        """A check for each row."""
        return [Check('%s:%d' % (self.name, entry.line), self.looker(programs, entry)) for entry in self.entries]

    def made(self, programs, entry):
        """Runs a row: how it ended, and the files that it made."""
        words, files = self.run_of(entry)
        with Room(files) as room:
            ended = call(programs.wgcc, words, room)
            return ended, sorted(set(os.listdir(room)) - {*files})

    def looker(self, programs, entry):
        """The function that runs one row and looks at it."""
        def look():
            ended, made = self.made(programs, entry)
            status, line = wanted_line(entry.verdict, self.texts)
            fault = status_fault(ended, status)
            if fault is None and line is not None and ended.err != line.encode():
                fault = difference('line', line.encode(), ended.err)
            if fault is None and (ended.out if status else ended.err):
                fault = 'printed %r on the other stream' % (ended.out if status else ended.err)[:300]
            if fault is None and status and made:
                fault = 'saved %s' % ' '.join(made)
            return fault and '%s\n  | %s' % (fault, entry.source()[:160]), entry.verdict
        return look

    def bless(self, programs, _):
        """Writes anew what each row comes to."""
        lines = read(self.path).decode().split('\n')
        for entry in self.entries:
            verdict = verdict_of(self.made(programs, entry)[0])
            if verdict and verdict != entry.verdict:
                lines[entry.line - 1] = HEAD.sub(verdict, lines[entry.line - 1], count=1)
        write(self.path, '\n'.join(lines).encode())


class Sources(Table):
    """Sources: 'KERNEL VERDICT'. The launch file beside the table has KERNEL where the kernel's name stands."""

    def run_of(self, entry):
        """The words and the files of a row."""
        launch = self.beside('.toml').replace(b'KERNEL', entry.front[0].encode())
        return ['plan', 'k.cl', 'k.toml'], {'k.cl': entry.source().encode(), 'k.toml': launch}


class LaunchFiles(Table):
    """Launch files for the source beside the table: 'VERDICT WORD ..', with words of the command line."""

    def run_of(self, entry):
        """The words and the files of a row."""
        files = {'k.cl': self.beside('.cl'), 'k.toml': entry.source().encode()}
        return ['run', 'k.cl', 'k.toml', *entry.behind], files


class CommandLines(Table):
    """Command lines, over the source and the launch file beside the table."""

    def run_of(self, entry):
        """The words and the files of a row."""
        return entry.source().split(), {'k.cl': self.beside('.cl'), 'k.toml': self.beside('.toml')}


KINDS = {'sources': Sources, 'launch_files': LaunchFiles, 'command_lines': CommandLines}
