"""What is said of status 5: the object of the access, its length, and the index.

The index is asked of the program itself. A copy of the source hands the index of this access to a function in front of
it, which ends the run for this very item, where the index is outside of the object, at a line that tells some bits of
it. The copy is run with a launch file that saves nothing. Where any of this does not fit, no index is told."""
import os
import re
import subprocess
import tempfile

from explain_parts import tokens as cutting
from explain_parts.findings import Finding
from explain_parts.objects import constant, object_of
from explain_parts.unit import bytes_of

ENDED = re.compile(r'^wgcc: (?:launch (?P<launch>\d+): )?(?:range|parted): group (?P<group>\d+), item (?P<item>\d+), '
                   r'(?P<line>\d+):(?P<column>\d+)$')
# A run that took more of a processor than this is not made again, and no copy runs longer than that, in seconds.
LONGEST, LAST = 5.0, 300


class Access:
    """The access at a place: its tokens in the text, the name that it goes through, and the indices behind that."""

    def __init__(self, source, line, column):
        self.source = source
        self.at = cutting.index_at(source.tokens, line, column)
        self.raw = cutting.index_at(source.raw, line, column)
        tokens = source.tokens
        self.name, self.text, self.lists = None, '', []
        if self.at >= len(tokens):
            return
        self.last = self.end_of(tokens, self.at)
        named = [index for index in range(self.at, self.last + 1) if tokens[index].kind == 'name'
                 and any(one.lengths or one.has_star for one in source.unit.seen(self.at, tokens[index].text))]
        if not named:
            return
        self.name = tokens[named[0]].text
        self.text = cutting.spelled(tokens[self.at:self.last + 1])
        is_plain = named[0] == self.at and tokens[self.at].macro is None
        self.lists = self.raw_lists() if is_plain else []

    @staticmethod
    def end_of(tokens, at):
        """The index of the last token of the element that begins here."""
        index = at
        while index < len(tokens) - 1 and tokens[index].text in ('*', '+', '-'):
            index += 1
        if tokens[index].text in cutting.CLOSING:
            index = cutting.matching(tokens, index)
        while index + 1 < len(tokens) and tokens[index + 1].text in ('[', '++', '--'):
            index = cutting.matching(tokens, index + 1) if tokens[index + 1].text == '[' else index + 1
        return min(index, len(tokens) - 1)

    def raw_lists(self):
        """The indices in the tokens of the text of each `[` behind the name, and of the `]` that closes it."""
        raw, at, found = self.source.raw, self.raw + 1, []
        while at < len(raw) and raw[at].text == '[':
            close = cutting.matching(raw, at)
            if close >= len(raw):
                return []
            found.append((at, close))
            at = close + 1
        return found


class Item:
    """The work-item at fault: its group, its number in the launch, and its ids in each dimension."""

    def __init__(self, match, fit):
        self.group, self.number = int(match['group']), int(match['item'])
        sizes, local = fit.sizes('global'), fit.sizes('local')
        offset = fit.sizes('offset') or [0] * len(sizes)
        items = 1
        for one in local:
            items *= one
        rest, group = self.number - self.group * items, self.group
        self.ids, self.locals = [], []
        for size, one, begin in zip(sizes, local, offset):
            self.locals.append(rest % one)
            self.ids.append(begin + group % (size // one) * one + rest % one)
            rest, group = rest // one, group // (size // one)

    def said(self):
        """The item in words."""
        shown = [one[0] if len(one) == 1 else '(%s)' % ', '.join(map(str, one)) for one in (self.ids, self.locals)]
        return 'Item %d has the global id %s and the local id %s.' % (self.number, *shown)


def findings(source, fit, match, runner):
    """What is said of an access out of range; `runner` runs words with the program, or is None."""
    if not fit.sizes('global') or not fit.sizes('local'):
        return []
    item = Item(match, fit)
    access = Access(source, int(match['line']), int(match['column']))
    found = object_of(source, fit, access.at, access.name) if access.name else None
    if found is None:
        text = '`%s`: which object it is, is not told by the text.' % access.text if access.name else ''
        return [Finding(one) for one in (text, item.said()) if one]
    index = Asked(source, fit, match, access, found, item).index(runner) if runner else None
    text = '`%s`: %s`%s` leads into %s.' if not found.is_start else '`%s`: %s`%s` is %s.'
    text %= (access.text, 'index %d. ' % index if index is not None else '', access.name, found.said())
    return [Finding(text), Finding(item.said())]


def as_toml(value):
    """A value as TOML spells it, on one line; what a buffer is saved as is left out."""
    if isinstance(value, bool):
        return str(value).lower()
    if isinstance(value, str):
        return '"%s"' % ''.join(c if c.isprintable() and c not in '"\\' else '\\U%08X' % ord(c) for c in value)
    if isinstance(value, list):
        return '[%s]' % ', '.join(map(as_toml, value))
    if isinstance(value, dict):
        return '{ %s }' % ', '.join('%s = %s' % (as_toml(name), as_toml(one)) for name, one in value.items()
                                    if name != 'save')
    return str(value)


class Asked:
    """The question for an index: what it is asked with."""

    def __init__(self, source, fit, match, access, found, item):
        self.source, self.fit, self.match = source, fit, match
        self.access, self.object, self.item = access, found, item

    def index(self, runner):
        """The index, or None where it cannot be asked for."""
        lengths = self.lengths()
        width = bytes_of(self.object.element)
        if lengths is None or not self.object.is_start or not width or self.object.size is None \
                or self.object.size % width:
            return None
        first = self.told(runner, 'bits', 128)
        if first is None:
            return None
        bits, value = first % 64, 0
        for shift in range(0, bits, 6):
            part = self.told(runner, '(int)((v >> %d) & 63)' % shift, 64)
            if part is None:
                return None
            value |= part << shift
        return ~value if first >= 64 else value

    def lengths(self):
        """The lengths of the array's inner dimensions, or None where the access is of another form."""
        lists = self.access.lists
        one = self.source.unit.seen(self.access.at, self.access.name)[-1]
        inner = [constant(length) for length in one.lengths[1:]]
        if not lists or None in inner or len(lists) != max(len(one.lengths), 1):
            return None
        return inner

    def told(self, runner, what, count):
        """Which of so many lines the copy ends at, by the value of this expression; or None."""
        name = 'index_asked'
        while name in self.source.text:
            name += '_'
        head = self.head(name, what, count)
        with tempfile.TemporaryDirectory(prefix='explain-') as room:
            paths = [os.path.join(room, one) for one in ('k.cl', 'k.toml')]
            with open(paths[0], 'w', encoding='latin-1') as file:
                file.write(head + self.changed(name))
            with open(paths[1], 'w', encoding='utf-8') as file:
                file.write(''.join('%s = %s\n' % (as_toml(key), as_toml(value))
                                   for key, value in self.fit.launch.data.items()))
            ended = runner(paths)
        match = ENDED.match(ended or '')
        if not match or any(match[one] != self.match[one] for one in ('launch', 'group', 'item')):
            return None
        line = int(match['line']) - 2
        return line if 0 <= line < count else None

    def head(self, name, what, count):
        """The function in front of the copy: its line k + 2 is where the run ends for the value k."""
        here = ' && '.join('get_global_id(%d) == %d' % (at, one) for at, one in enumerate(self.item.ids))
        lines = ['long %s(long i) { int z[1]; long v = i < 0 ? ~i : i; int bits = 64 - (int)clz(v) + (i < 0 ? 64 : 0); '
                 'if (%s && (i < 0 || i >= %d)) { int told = %s;' % (name, here, self.object.count(), what)]
        lines += ['if (told == %d) z[1] = 0;' % value for value in range(count)]
        return '\n'.join(lines) + '\n} return i; }\n'

    def changed(self, name):
        """The source, in which the index of the access goes through the function."""
        raw, text, lists = self.source.raw, self.source.text, self.access.lists
        inner = self.lengths()
        parts = [text[raw[begin].start + 1:raw[end].start] for begin, end in lists]
        flat = '(%s)' % parts[0]
        for length, part in zip(inner, parts[1:]):
            flat = '((long)%s * %d + (long)(%s))' % (flat, length, part)
        first, last = raw[lists[0][0]].start, raw[lists[-1][1]].start
        return '%s%s[%s(%s)%s' % (text[:first], '[0]' * len(inner), name, flat, text[last:])


def runner_of(program, words, seconds):
    """What runs a copy with the program: the line that it ends with. None where a run takes long."""
    if seconds > LONGEST:
        return None

    def run(paths):
        options = [word for word in words.words[3:] if word != '--cache']
        try:
            ended = subprocess.run([program, 'run', *paths, *options], stdin=subprocess.DEVNULL, capture_output=True,
                                   check=False, timeout=LAST)
        except (OSError, subprocess.TimeoutExpired):
            return None
        return ended.stderr.decode('utf-8', 'replace').rstrip('\n')
    return run
