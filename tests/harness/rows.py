"""Cases that are folders: a run with its files, and all that it is to leave."""
import fnmatch
import os
import re

from .calls import Check, call, status_fault
from .files import Room, difference, files_of, from_hex, read, to_hex, write
from .listings import iterations_fault, listing_fault

WORDS = 'run kernel.cl launch.toml'
LANES = ('1', '4', '8', '16')
# The file under which a kernel is built that a case runs, and how a launch names its kernel.
OBJECT = 'built.wgo'
KERNEL = re.compile(rb'^\s*kernel\s*=\s*"(\w+)"', re.M)
# What stands in `expected` beside files that the run leaves.
SAID = ('status', 'line', 'line_like', 'first_line', 'steps', 'iterations')
NO_FILES = ('README.md', 'words', 'expected')


def commands_of(folder):
    """The commands of a case, each a list of words."""
    path = os.path.join(folder, 'words')
    lines = (read(path).decode() if os.path.exists(path) else WORDS).splitlines()
    return [line.split() for line in lines] or [[]]


def takes_lanes(words):
    """Whether a command takes a number of lanes and names none."""
    return words[:1] in (['run'], ['build']) and len(words) > 2 and '--lanes' not in words


def at_lanes(commands, lanes):
    """The commands with that number of lanes, where the first takes one and names none and a launch is run by the last."""
    if not takes_lanes(commands[0]) or commands[-1][:1] not in (['run'], ['exec']):
        return None
    return [words + ['--lanes', lanes] if takes_lanes(words) else words for words in commands]


def all_commands(folder):
    """The lists of commands with which a case is run: where the first names no lanes also at each number of lanes."""
    commands = commands_of(folder)
    return [commands] + [each for each in (at_lanes(commands, lanes) for lanes in LANES) if each]


def by_object(folder, files, status):
    """The commands that build the kernel of a run and run its object file; none where it ends before its launches run,
    these name several kernels or the run keeps what it compiles."""
    words = commands_of(folder)[-1]
    if words[:1] != ['run'] or '--cache' in words or status not in (0, 5, 6, 7) or len(set(KERNEL.findall(files.get(words[2], b'')))) != 1:
        return []
    turns = words.index('--turns') if '--turns' in words else len(words)
    lanes = words.index('--lanes') if '--lanes' in words else len(words)
    build = ['build', *words[1:3], OBJECT, *words[lanes:lanes + 2]]
    return [[build, ['exec', OBJECT, words[2], *words[turns:turns + 2]]]]


def made_ready(program, commands, room):
    """The files of a run's folder behind all commands but the last, each of which is to end with status 0."""
    for words in commands[:-1]:
        fault = status_fault(call(program, words, room), 0)
        if fault:
            return fault, {}
    return None, files_as_left(room)


def said_fault(want, said):
    """What is wrong with the printed text, or nothing."""
    text = said.decode('utf-8', 'replace')
    if 'line_like' in want:
        pattern = want['line_like'].decode()
        return None if fnmatch.fnmatchcase(text, pattern) else 'printed %r, not like %r' % (text, pattern)
    if 'first_line' in want:
        first = said.split(b'\n')[0] + b'\n'
        if first != want['first_line']:
            return difference('first line', want['first_line'], first)
        fault = listing_fault(text, want.get('steps', b'').decode())
        return fault or iterations_fault(want.get('iterations', b'').decode(), text)
    line = want.get('line', b'')
    return None if said == line else difference('text', line, said)


def choices_of(content):
    """The files of which one is to be there, where several are right."""
    return [from_hex(line) for line in content.split(b'\n') if line and not line.startswith(b'#')]


def wanted_files(before, want, after):
    """The files that are to be there behind a run. Of several that are right it is the one that is there."""
    wanted = dict(before)
    for name, content in want.items():
        if name.endswith('.one_of'):
            choices = choices_of(content)
            name = name[:-len('.one_of')]
            content = after[name] if after.get(name) in choices else choices[0]
        if name not in SAID:
            wanted[name] = content
    return wanted


def files_fault(before, want, room):
    """What is wrong with the files that a run left, or nothing."""
    after = files_as_left(room)
    wanted = wanted_files(before, want, after)
    for name in sorted({*after, *wanted}):
        if after.get(name) != wanted.get(name):
            return difference(name, wanted.get(name), after.get(name))
    return None


def files_as_left(room):
    """The files of a run's folder, each with its own name."""
    found = {}
    for at, _, names in os.walk(room):
        for name in names:
            path = os.path.join(at, name)
            found[os.path.relpath(path, room)] = read(path)
    return found


def fault_of(ended, before, want, room):
    """What is wrong with a run that has ended, and what it printed on the stream that is meant."""
    status = int(want.get('status', b'0'))
    said, silent = (ended.out, ended.err) if status == 0 else (ended.err, ended.out)
    fault = status_fault(ended, status)
    if fault is None and silent:
        fault = 'printed %r on the other stream' % silent[:300]
    return fault or said_fault(want, said) or files_fault(before, want, room), said


class Row:
    """A case that is a folder with a run."""

    def __init__(self, name, folder):
        self.name, self.folder = name, folder
        self.before = files_of(folder, NO_FILES)
        self.want = files_of(os.path.join(folder, 'expected'))

    def checks(self, programs):
        """A check for each list of commands."""
        built = by_object(self.folder, self.before, int(self.want.get('status', b'0')))
        return [Check('%s: %s' % (self.name, '; '.join('wgcc ' + ' '.join(words) for words in commands)),
                      self.looker(programs, commands)) for commands in all_commands(self.folder) + built]

    def looker(self, programs, commands):
        """The function that makes one run and looks at it."""
        def look():
            said = b''
            with Room(self.before) as room:
                fault, before = made_ready(programs.wgcc, commands, room)
                if fault is None:
                    fault, said = fault_of(call(programs.wgcc, commands[-1], room), before, self.want, room)
            return fault, said.decode('utf-8', 'replace').split('\n')[0]
        return look

    def bless(self, programs, is_named):
        """Writes anew what is expected; files that are not there yet only where the case is named."""
        commands = commands_of(self.folder)
        with Room(self.before) as room:
            fault, before = made_ready(programs.wgcc, commands, room)
            ended = call(programs.wgcc, commands[-1], room)
            after = files_as_left(room)
        if fault or ended.status is None:
            return
        said = ended.out if ended.status == 0 else ended.err
        self.put('status', b'%d\n' % ended.status, is_named)
        if 'first_line' in self.want:
            self.put('first_line', said.split(b'\n')[0] + b'\n', False)
        elif 'line_like' not in self.want:
            self.put('line', said, is_named)
        self.bless_files(before, after, is_named)

    def bless_files(self, before, after, is_named):
        """Writes the files that the run left other than they were."""
        for name in sorted({*self.want} - {*SAID} - {*after}):
            if not name.endswith('.one_of'):
                self.remove(name)
        for name, content in after.items():
            if content != before.get(name) and name + '.one_of' not in self.want:
                self.put(name, content, is_named)

    def paths(self, name):
        """Where a file may stand in `expected`."""
        path = os.path.join(self.folder, 'expected', name)
        return [path, path + '.hex', path + '.repeat']

    def put(self, name, content, is_named):
        """Writes an expected file where it says something else, or is not there and the case is named."""
        if self.want.get(name, None) == content or (name not in self.want and not is_named):
            return
        plain, as_hex, as_repeat = self.paths(name)
        if name in SAID or os.path.exists(plain):
            write(plain, content)
        else:
            write(as_hex, to_hex(content))
            if os.path.exists(as_repeat):
                os.remove(as_repeat)

    def remove(self, name):
        """Takes away an expected file that the run does not leave."""
        for path in self.paths(name):
            if os.path.exists(path):
                os.remove(path)
