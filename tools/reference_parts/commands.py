"""The commands run, plan and sample, and what else can be asked of a launch."""
import os
import re
import sys
import threading

from .checker import Checker
from .launch_files import bound, read_launch_file
from .launches import Launch
from .macros import expand
from .outcomes import Outcomes
from .parser import Parser
from .plan import Plan
from .refusals import LAUNCH_TEXTS, SOURCE_TEXTS, STATUS_TEXTS, Ended, LaunchRefused, SourceRefused
from .tokens import tokens_of

USAGE = """reference run SOURCE LAUNCH [--lanes N] [--turns N]
reference plan SOURCE LAUNCH
reference sample K

With run also:
  --seed S       any item makes the next step, in a random order that S decides
  --if-clean     looks for races, and runs the launches where there is none and each is done
  --check-clean  says whether the launch is clean, without races and without an end before its end; saves nothing
  --schedules K  with --check-clean: how many random orders are tried beside that of the numbers, 3 if not given
  --outcomes     prints each line that items at different barriers may end with, behind the word `outcome`
  --all-outcomes prints all that may come of a small launch, a line each: done, the lines of statuses 5, 6 and 7,
                 `race` alone where it races, and `more` where an item takes too many turns; saves nothing
"""
COMMANDS = {'run': (2, ['lanes', 'turns']), 'plan': (2, []), 'sample': (1, [])}
STACK = 512 * 1024 * 1024
SCHEDULES = 3

SAMPLE_HEAD = ('__kernel void s(__global uint *a) { __local uint t[256]; int l = get_local_id(0);'
               't[l] = a[get_global_id(0)]; barrier(CLK_LOCAL_MEM_FENCE);')
SAMPLES = [
    'a[get_global_id(0)] = t[255 - l];',
    '''int d; uint v; for (d = 1; d < 256; d *= 2) { v = t[l]; if (l >= d) v += t[l - d];
 barrier(CLK_LOCAL_MEM_FENCE); t[l] = v; barrier(CLK_LOCAL_MEM_FENCE); } a[get_global_id(0)] = t[l];''',
    '''for (int d = 128; d > 0; d /= 2) { if (l < d) t[l] = max(t[l], t[l + d]);
 barrier(CLK_LOCAL_MEM_FENCE); } a[get_global_id(0)] = t[0];''']
SAMPLE_LAUNCH = '''format = 1
kernel = "s"
global = 65536
local = 256
[[buffer]]
name = "a"
bytes = 262144
load = "a"
save = "b"
[[arg]]
buffer = "a"
'''


class Disk:
    """Files of the current folder."""

    def load(self, name, most):
        """The first bytes of a file, at most so many."""
        try:
            with open(name, 'rb') as file:
                return file.read(most)
        except FileNotFoundError:
            raise Ended(9) from None
        except (OSError, ValueError):
            raise Ended(1) from None

    def save(self, name, data):
        """Writes a file."""
        try:
            with open(name, 'wb') as file:
                file.write(data)
        except (OSError, ValueError):
            raise Ended(1) from None


class Memory:
    """Files that are held in memory, by name."""

    def __init__(self, files):
        self.files = files

    def load(self, name, most):
        """The first bytes of a file, at most so many."""
        if name not in self.files:
            raise Ended(9)
        return self.files[name][:most]

    def save(self, name, data):
        """Writes a file."""
        self.files[name] = bytes(data)


def number_of(word, most=2**64 - 1):
    """The number that a word of the command line is."""
    if not re.fullmatch(r'\+?[0-9]+', word, re.A) or int(word) > most:
        raise Ended(2)
    return int(word)


def parsed_words(words):
    """The command, its words and its options."""
    if not words or words[0] not in COMMANDS:
        raise Ended(2)
    count, known = COMMANDS[words[0]]
    plain, options, at, is_rest = [], {}, 1, False
    while at < len(words):
        word = words[at]
        at += 1
        if is_rest or word == '-' or not word.startswith('-'):
            plain.append(word)
            continue
        if word == '--':
            is_rest = True
            continue
        name, has_value, value = word[2:].partition('=')
        if not word.startswith('--') or name not in known or name in options:
            raise Ended(2)
        if not has_value:
            if at >= len(words) or (words[at].startswith('-') and words[at] != '-'):
                raise Ended(2)
            value = words[at]
            at += 1
        options[name] = number_of(value)
    if len(plain) != count:
        raise Ended(2)
    if words[0] == 'sample':
        plain[0] = number_of(plain[0], 2**32 - 1)
    return words[0], plain, options


def compiled(source, defines, kernel_name):
    """The checker and the kernel of a source."""
    tokens = expand(source, tokens_of(source), defines)
    checker = Checker(source, tokens, Parser(source, tokens).unit(), kernel_name)
    return checker, checker.run()


class Command:
    """One command over files; `asked` has the options that are the reference's own."""

    def __init__(self, files, asked):
        self.files, self.asked = files, asked

    def words_of(self, checker, outcome):
        """The status and the line of an outcome that is not the end of the launch."""
        if outcome[0] == 'turns':
            return 7, 'out of turns\n'
        if outcome[0] == 'race':
            return 99, 'race %r\n' % (outcome[1],)
        kind, group, item, node = outcome
        place = checker.place(node.first)
        return 5 if kind == 'range' else 6, '%s: group %d, item %d, %d:%d\n' % (kind, group, item, *place)

    def front(self, text, number):
        """What stands in front of each line about a launch."""
        return 'wgcc: ' + ('launch %d: ' % (number + 1) if text['format'] == 3 else '')

    def read(self, source, launch, options):
        """The launch file, and the checker and kernel of each of its launches."""
        data = self.files.load(source, 262145).decode('latin-1')
        text = read_launch_file(self.files.load(launch, 1048577), options.get('lanes'), options.get('turns'))
        return text, [compiled(data, text['defines'], each['kernel']) for each in text['launches']]

    def plan(self, source, launch):
        """What `plan` prints."""
        text, compiled_kernels = self.read(source, launch, {})
        printed = ''
        for number, (checker, kernel) in enumerate(compiled_kernels):
            if text['format'] == 3:
                printed += 'launch %d\n' % (number + 1)
            printed += Plan(checker, kernel).text
        return 0, printed

    def run(self, source, launch, options):
        """Runs the launches of a file: the status and the line."""
        text, compiled_kernels = self.read(source, launch, options)
        launches = [(checker, kernel, bound(kernel, text, part))
                    for (checker, kernel), part in zip(compiled_kernels, text['launches'])]
        if 'check-clean' in self.asked:
            return self.check_clean(text, launches)
        buffers = self.buffers(text)
        if 'all-outcomes' in self.asked:
            return self.all_outcomes(text, launches, buffers)
        groups = items = 0
        for number, (checker, kernel, part) in enumerate(launches):
            made = Launch(checker, kernel, part, buffers, 'if-clean' in self.asked, self.asked.get('seed'))
            outcome = made.run()
            if 'outcomes' in self.asked:
                for each in made.parted_outcomes:
                    sys.stderr.write('outcome ' + self.front(text, number) + self.words_of(checker, each)[1])
            if outcome[0] != 'done':
                status, line = self.words_of(checker, outcome)
                return status, self.front(text, number) + line
            groups += made.groups
            items += made.groups * made.items_of_a_group
        for each, data in zip(text['buffers'], buffers):
            if 'save' in each:
                self.files.save(each['save'], data)
        return 0, 'wgcc: done, %d groups, %d items\n' % (groups, items)

    def buffers(self, text):
        """The buffers of a launch file at its start."""
        made = []
        for each in text['buffers']:
            data = bytearray(each['bytes'])
            if 'load' in each:
                loaded = self.files.load(each['load'], each['bytes'])
                data[:len(loaded)] = loaded
            made.append(data)
        return made

    def all_outcomes(self, text, launches, buffers):
        """All that may come of the launches. A launch is followed where all before it may be done."""
        lines = set()
        for number, (checker, kernel, part) in enumerate(launches):
            found = Outcomes(checker, kernel, part, buffers).all()
            kinds = {each[0] for each in found}
            if 'race' in kinds:
                return 0, 'race\n'
            front = self.front(text, number)
            lines |= {'more\n' if each[0] == 'more' else front + self.words_of(checker, each)[1]
                      for each in found if each[0] != 'done'}
            if 'done' not in kinds:
                return 0, ''.join(sorted(lines))
        return 0, ''.join(sorted(lines | {'done\n'}))

    def check_clean(self, text, launches):
        """Whether the launches are clean: no race, and the same end in order and in random orders."""
        ends, most = [], 0
        first = self.asked.get('seed') or 0
        for seed in [None] + [first + number for number in range(self.asked.get('schedules', SCHEDULES))]:
            buffers = self.buffers(text)
            for number, (checker, kernel, part) in enumerate(launches):
                made = Launch(checker, kernel, part, buffers, looks_for_races=True, seed=seed)
                outcome = made.run()
                most = max(most, made.turned)
                if outcome[0] != 'done':
                    line = self.words_of(checker, outcome)[1].strip()
                    return 10, 'not clean: launch %d: %s\n' % (number + 1, line)
            ends.append([bytes(each) for each in buffers])
        if any(each != ends[0] for each in ends):
            return 11, 'not clean: schedules differ\n'
        return 0, 'clean, at most %d turns in a launch\n' % most

    def sample(self, number):
        """Runs a sample: the status and the line."""
        data = b''.join(((number + at * 2654435769) % 2**32).to_bytes(4, 'little') for at in range(65536))
        source = SAMPLE_HEAD + SAMPLES[number % 3] + '}'
        self.files = Memory({'k': source.encode(), 'l': SAMPLE_LAUNCH.encode(), 'a': data})
        status, line = self.run('k', 'l', {})
        if status:
            return status, line
        left = self.files.files['b']
        total = sum(int.from_bytes(left[at:at + 4], 'little') for at in range(0, len(left), 4)) % 2**32
        return 0, 'wgcc: sample %d, sum %d\n' % (number, total)

    def main(self, words):
        """The status, what is printed on standard output, and what on standard error."""
        plain = ['']
        try:
            name, plain, options = parsed_words(words)
            if name == 'sample':
                status, line = self.sample(plain[0])
            elif name == 'plan':
                status, line = self.plan(*plain)
            else:
                status, line = self.run(*plain, options)
            return (0, line, '') if status == 0 else (status, '', line)
        except SourceRefused as end:
            place = (plain[0], end.line, end.column, end.number, SOURCE_TEXTS[end.number])
            return 3, '', 'wgcc: %s:%d:%d: E%d %s\n' % place
        except LaunchRefused as end:
            return 4, '', 'wgcc: L%d %s\n' % (end.number, LAUNCH_TEXTS[end.number])
        except Ended as end:
            return end.status, '', 'wgcc: %s\n' % STATUS_TEXTS[end.status]


def own_options(arguments):
    """The options that are the reference's own, and the words of the command."""
    asked, words, rest = {}, [], list(arguments)
    while rest:
        word = rest.pop(0)
        if word in ('--seed', '--schedules') and rest:
            asked[word[2:]] = int(rest.pop(0))
        elif word in ('--if-clean', '--check-clean', '--outcomes', '--all-outcomes'):
            asked[word[2:]] = True
        else:
            words.append(word)
    return asked, words


def call(arguments, files=None):
    """Makes a command over files in memory or of the current folder: its status and what it prints on each stream."""
    asked, words = own_options(arguments)
    return Command(Disk() if files is None else files, asked).main(words)


def with_deep_stack(work):
    """Does a work in a thread whose stack is deep enough for the deepest unit; what it gives."""
    found = []
    sys.setrecursionlimit(1000000)
    threading.stack_size(STACK)
    thread = threading.Thread(target=lambda: found.append(work()))
    thread.start()
    thread.join()
    if not found:
        os._exit(101)
    return found[0]


def main():
    """The program."""
    if sys.argv[1:] in (['--help'], ['-h']):
        sys.stdout.write(USAGE)
        return
    status, out, err = with_deep_stack(lambda: call(sys.argv[1:]))
    sys.stdout.write(out)
    sys.stdout.flush()
    sys.stderr.write(err)
    sys.stderr.flush()
    os._exit(status)
