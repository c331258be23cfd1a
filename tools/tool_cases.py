"""The cases of tests/explain and tests/tools: tables of small folders, of words, and of what is said.

A table is a text. A line `=== NAME` begins a case, a line `--- PART` a part of it, which goes on to the next such line;
what stands in front of the first case is a comment, and so is what stands in front of a case's first part. The case
`base` is none: its parts are those that a case of the table has where it has no part of that name. The parts:

  NAME              the file NAME of the folder in which the case runs; `NAME escaped`: with \\r, \\t, \\n and \\xFF
  prepare           shell commands that are run in that folder before
  words, options    the words of the command, and the options of tools/explain
  run               shell commands, whose output is compared
  needs             a file of the repository without which the case is not run
  status            the exit status; without it 0 is meant in tests/tools, and in tests/explain any
  says              standard error; a last line `...` stands for a rest without a line that the program could print
  prints            standard output, likewise"""
import concurrent.futures
import glob
import os
import subprocess
import tempfile

ROOT = os.path.dirname(os.path.dirname(os.path.realpath(__file__)))
KNOWN = {'needs', 'prepare', 'words', 'options', 'run', 'status', 'says', 'prints'}
REST = '...\n'
OWN_LINES = ('wgcc: ', 'Printed: ')


class Case:
    """A case: its table, its name, its own parts in order, and those of the table's base under them."""

    def __init__(self, table, name):
        self.table, self.name, self.own, self.base = table, name, {}, {}

    def part(self, name, default=None):
        """A part of the case or else of the base."""
        return self.own.get(name, self.base.get(name, default))

    def files(self):
        """The files of the folder: their names and bytes."""
        found = {}
        for head, text in {**self.base, **self.own}.items():
            name, _, how = head.partition(' ')
            if name not in KNOWN:
                found[name] = text.rstrip('\n').encode().decode('unicode_escape').encode('latin-1') \
                    if how == 'escaped' else text.encode()
        return found

    def room(self, folder):
        """Makes the folder of the case."""
        for name, content in self.files().items():
            os.makedirs(os.path.dirname(os.path.join(folder, name)), exist_ok=True)
            with open(os.path.join(folder, name), 'wb') as file:
                file.write(content)
        if self.part('prepare'):
            subprocess.run(['bash', '-ec', self.part('prepare')], cwd=folder, check=True, capture_output=True,
                           timeout=60)


def read(path):
    """The cases of a table."""
    cases, base, part = [], {}, None
    with open(path, encoding='utf-8') as file:
        lines = file.read().splitlines(keepends=True)
    for line in lines:
        if line.startswith('=== '):
            cases.append(Case(os.path.basename(path), line[4:].strip()))
            part = None
        elif line.startswith('--- ') and cases:
            part = line[4:].strip()
            cases[-1].own[part] = ''
        elif part is not None:
            cases[-1].own[part] += line
    for case in cases:
        # An empty line in front of the next case belongs to neither.
        for name, text in case.own.items():
            case.own[name] = text.rstrip('\n') + '\n' if text.strip('\n') else ''
    if cases and cases[0].name == 'base':
        base = cases.pop(0).own
    for case in cases:
        case.base = base
    return cases


def tables(folder):
    """The tables of a folder of tests."""
    return sorted(glob.glob(os.path.join(ROOT, 'tests', folder, '*.txt')))


def ended(words, room, env=None):
    """How a command ends: its status, and what it prints on both streams."""
    done = subprocess.run(words, cwd=room, capture_output=True, stdin=subprocess.DEVNULL, check=False, timeout=600,
                          env=env)
    return done.returncode, done.stdout.decode('utf-8', 'replace'), done.stderr.decode('utf-8', 'replace')


def differs(wanted, found):
    """What differs between a text that is wanted and one that is found, or None."""
    if wanted.endswith(REST):
        front = wanted[:-len(REST)]
        if found.startswith(front) and found != front:
            rest = found[len(front):].splitlines()
            own = [line for line in rest if line.startswith(OWN_LINES)]
            return 'has the line %r behind its own' % own[0] if own else None
    elif wanted == found:
        return None
    return 'is\n%sand wanted is\n%s' % (indented(found), indented(wanted))


def indented(text):
    """A text with blanks in front of its lines."""
    return ''.join('    %s\n' % line for line in text.splitlines()) or '    (nothing)\n'


def bless(path, said):
    """Writes the texts anew that are said: by the name of the case and of the part."""
    with open(path, encoding='utf-8') as file:
        lines = file.read().splitlines(keepends=True)
    out, case, skips = [], None, False
    for line in lines:
        if line.startswith('=== '):
            case = line[4:].strip()
        if line.startswith(('=== ', '--- ')):
            if skips and line.startswith('=== '):
                out.append('\n')
            skips = False
        if not skips:
            out.append(line)
        if line.startswith('--- ') and (case, line[4:].strip()) in said:
            out.append(said.pop((case, line[4:].strip())))
            skips = True
    with open(path, 'w', encoding='utf-8') as file:
        file.write(''.join(out))


def run_all(cases, look, jobs=None):
    """Looks at all cases, side by side, and prints what is wrong; how many failed."""
    failed = 0
    lacking = [case for case in cases if case.part('needs') and not os.path.exists(
        os.path.join(ROOT, case.part('needs').strip()))]
    for case in lacking:
        print('%s: %s: not run, since %s is not there' % (case.table, case.name, case.part('needs').strip()))
        cases.remove(case)
    with concurrent.futures.ThreadPoolExecutor(jobs or os.cpu_count() or 1) as pool:
        for case, fault in zip(cases, pool.map(look, cases)):
            if fault:
                failed += 1
                print('%s: %s: %s' % (case.table, case.name, fault), flush=True)
    return failed


def in_room(case, act):
    """What an act gives in a new folder of the case."""
    with tempfile.TemporaryDirectory(prefix='tool-case-') as room:
        case.room(room)
        return act(room)
