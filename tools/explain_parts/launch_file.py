"""What is wrong with a launch file by itself: L1 to L3, L9, L10, and L15 to L19."""
import re

from explain_parts.findings import Finding, counted, listed, said_near
from explain_parts.launch_places import Places

try:
    import tomllib
except ImportError:  # before Python 3.11: of a launch file nothing is known
    tomllib = None

MOST_BYTES = 1 << 20
COMMON = {'format', 'lanes', 'turns', 'defines', 'buffer'}
LAUNCH = {'kernel', 'global', 'local', 'offset', 'arg'}
TOP = {1: COMMON | LAUNCH - {'offset'}, 2: COMMON | LAUNCH, 3: COMMON | {'launch'}}
BUFFER = {'name', 'bytes', 'load', 'save'}
ARG = {'buffer', 'value', 'local'}
KINDS = {bool: 'a truth value', int: 'an integer', float: 'a number with a point', str: 'a string', list: 'a list',
         dict: 'a table'}
IDENTIFIER = re.compile(r'[A-Za-z_][A-Za-z0-9_]*\Z')
AT = re.compile(r' \(at (?:line (\d+), column (\d+)|end of document)\)\Z')
# What stands in the place of TOML, by the line: a pattern, and what to write.
SLIPS = [
    (re.compile(r'^\s*[\w-]+\s*:'), 'Between a key and its value stands `=`.'),
    (re.compile(r'=\s*[0-9_]+\s*[-+*/<]'), 'A value is one number, and no expression: write its result.'),
    (re.compile(r'=\s*0[0-9]'), 'A decimal number has no 0 in front.'),
    (re.compile(r'=\s*[A-Za-z_.][\w./-]*\s*(#.*)?$'), 'A string stands in quotes: `"name"`.'),
]


def kind_of(value):
    """What kind of value this is, in words."""
    return KINDS.get(type(value), 'a date')


def is_whole(value):
    """Whether a value is an integer; `true` is none."""
    return isinstance(value, int) and not isinstance(value, bool)


def tables(value):
    """The tables of a key: of an array each with its number, of a single table the table itself."""
    if isinstance(value, dict):
        return [((), value)]
    return [((number,), one) for number, one in enumerate(value) if isinstance(one, dict)] \
        if isinstance(value, list) else []


class Launches:
    """A launch file: its name, its text, what tomllib reads of it (`data`, or None), and the places of its keys."""

    def __init__(self, name):
        self.name, self.data, self.places, self.fault = name, None, None, None
        try:
            with open(name, 'rb') as file:
                self.bytes = file.read()
        except OSError:
            self.bytes = None
            return
        if tomllib is None:
            return
        try:
            self.text = self.bytes.decode('utf-8').removeprefix('\ufeff')
            self.data = tomllib.loads(self.text)
            self.places = Places(self.text.replace('\r\n', '\n'))
        except (ValueError, AttributeError, RecursionError) as error:
            self.fault = error

    def finding(self, text, *path):
        """A finding at a key, or at the last key of its table where the key itself is not there."""
        place = self.places.found.get(path)
        line = place[0] if place else None
        while line is None and path:
            path = path[:-1]
            line = self.places.line(*path) if path else self.places.last_line()
        return Finding(text, self.name, line)

    def missing(self, name, path, what=''):
        """A finding of a key that is missing in a table."""
        line = self.places.last_line(*path) or (self.places.line(*path) if path else None)
        return Finding('key "%s" is missing%s' % (name, what), self.name, line)

    def format(self):
        """The format by whose keys the file is read."""
        value = self.data.get('format')
        return value if is_whole(value) and value in TOP else 1

    def list_of(self, *path):
        """The tables of an array of tables, and none where there is no such array."""
        value = self.data
        for name in path:
            value = value[name] if is_there(value, name) else None
        return [one for one in value if isinstance(one, dict)] if isinstance(value, list) else []

    def buffers(self):
        """The buffers that are listed."""
        return self.list_of('buffer')

    def launches(self):
        """The launches, each with its path in the file."""
        if self.format() == 3:
            return [(('launch', number), one) for number, one in enumerate(self.list_of('launch'))]
        return [((), self.data)]


def is_there(value, name):
    """Whether a table has a key, or a list an element."""
    return name in value if isinstance(value, dict) else isinstance(value, list) and name < len(value)


def not_toml(launch):
    """What is said of L1."""
    if launch.bytes is None:
        return []
    if len(launch.bytes) > MOST_BYTES:
        return [Finding('the file has %d bytes, and may have %d' % (len(launch.bytes), MOST_BYTES), launch.name)]
    found = looks_like_a_source(launch)
    if isinstance(launch.fault, UnicodeDecodeError):
        line = launch.bytes.count(b'\n', 0, launch.fault.start) + 1
        return found + [Finding('this is not UTF-8', launch.name, line)]
    if launch.fault is not None:
        return found or not_read(launch, str(launch.fault))
    return found + large_numbers(launch, launch.data, ())


def looks_like_a_source(launch):
    """Whether a source stands where the launch file is to stand."""
    if re.search(rb'\b(__kernel|kernel)\s+(void|__attribute__)', launch.bytes):
        return [Finding('this looks like a source: the words are SOURCE and then LAUNCH', launch.name)]
    if launch.bytes.startswith(b'WGO1'):
        return [Finding('this is an object file: the words are OBJECT and then LAUNCH', launch.name)]
    return []


def not_read(launch, said):
    """What tomllib says, at its place, and what to write."""
    place = AT.search(said)
    line, column = (int(place[1]), int(place[2])) if place and place[1] else (launch.text.count('\n') + 1, None)
    text = said[:place.start()] if place else said
    found = [Finding(text + ('' if column else ' (at the end of the file)'), launch.name, line, column, bool(column))]
    lines = launch.text.split('\n')
    shown = lines[line - 1] if line <= len(lines) else ''
    found += [Finding(help_text) for pattern, help_text in SLIPS if pattern.search(shown)][:1]
    twice = re.match(r'\s*\[([\w.]+)\]', shown)
    if twice and 'twice' in text:
        found.append(Finding('Several tables of one name stand under `[[%s]]` each.' % twice[1]))
    return found


def large_numbers(launch, value, path):
    """The integers that no 64 bits hold; tomllib takes them."""
    if is_whole(value) and not -1 << 63 <= value < 1 << 63:
        return [launch.finding('%d is beyond 64 bits' % value, *path)]
    parts = value.items() if isinstance(value, dict) else enumerate(value) if isinstance(value, list) else []
    return [found for name, part in parts for found in large_numbers(launch, part, path + (name,))]


def unknown_keys(launch):
    """What is said of L2."""
    data, which = launch.data, launch.format()
    found = unknown_in(launch, data, (), TOP[which], 'a file of format %d' % which)
    for path, table in tables(data.get('buffer')):
        found += unknown_in(launch, table, ('buffer',) + path, BUFFER, 'a `buffer`')
    groups = [(('launch',) + path, table) for path, table in tables(data.get('launch'))] if which == 3 else [((), data)]
    for path, table in groups:
        if which == 3:
            found += unknown_in(launch, table, path, LAUNCH, 'a `launch`')
        for below, arg in tables(table.get('arg')):
            found += unknown_in(launch, arg, path + ('arg',) + below, ARG, 'an `arg`')
    return found


def unknown_in(launch, table, path, keys, what):
    """The unknown keys of one table."""
    found = []
    for name in table:
        if name in keys:
            continue
        text = 'unknown key "%s"' % name
        where = [number for number in TOP if name in TOP[number]]
        if not path and where:
            text += ': it is a key of format %s' % listed(map(str, where))
        elif path and path[0] == 'launch' and len(path) == 2 and name in TOP[3]:
            text += ': it stands at the top of the file'
        text += '.%s The keys of %s are %s.' % (said_near(name, keys), what, listed(sorted(keys)))
        found.append(launch.finding(text, *path, name))
    return found


def wrong_keys(launch):
    """What is said of L3."""
    data, which = launch.data, launch.format()
    found = []
    if 'format' not in data:
        found.append(launch.missing('format', ()))
    elif not is_whole(data['format']) or data['format'] not in TOP:
        found.append(launch.finding('"format" is %s, and is 1, 2 or 3' % said(data['format']), 'format'))
    found += [one for name in ('lanes', 'turns') for one in of_kind(launch, data, (name,), int, False)]
    found += wrong_defines(launch) + wrong_array(launch, data, ('buffer',))
    for number, buffer in enumerate(launch.buffers()):
        for name, kind, is_needed in (('name', str, True), ('bytes', int, True), ('load', str, False),
                                      ('save', str, False)):
            found += of_kind(launch, buffer, ('buffer', number, name), kind, is_needed)
    if which == 3:
        if 'launch' not in data:
            found.append(launch.missing('launch', ()))
        found += wrong_array(launch, data, ('launch',))
    for path, one in launch.launches():
        found += wrong_launch(launch, one, path, which)
    return found


def said(value):
    """A value as TOML spells it, or its kind."""
    if isinstance(value, str):
        return '"%s"' % value
    return str(value).lower() if isinstance(value, (int, float)) else kind_of(value)


def of_kind(launch, table, path, kind, is_needed):
    """What is wrong with the kind of a key, the last name of the path."""
    name = path[-1]
    if name not in table:
        return [launch.missing(name, path[:-1])] if is_needed else []
    value = table[name]
    if is_whole(value) if kind is int else isinstance(value, kind):
        return []
    text = '"%s" is %s, and has to be %s' % (name, kind_of(value), KINDS[kind])
    if kind is int and isinstance(value, float) and value.is_integer():
        text += ': %d' % value
    if kind is int and isinstance(value, str) and value.strip().isdigit():
        text += ': %s, without quotes' % value.strip()
    return [launch.finding(text, *path)]


def wrong_array(launch, table, path):
    """What is wrong with a key that has to be an array of tables."""
    name = path[-1]
    if name not in table:
        return []
    value = table[name]
    if isinstance(value, dict):
        return [launch.finding('"%s" is one table, and has to be a list of tables: `[[%s]]`' % (name, name), *path)]
    if not isinstance(value, list):
        return [launch.finding('"%s" is %s, and has to be a list of tables' % (name, kind_of(value)), *path)]
    return [launch.finding('"%s" has %s where a table has to stand' % (name, kind_of(one)), *path, number)
            for number, one in enumerate(value) if not isinstance(one, dict)]


def wrong_defines(launch):
    """What is wrong with the names that are given."""
    defines = launch.data.get('defines', {})
    if not isinstance(defines, dict):
        return of_kind(launch, launch.data, ('defines',), dict, False)
    found = []
    for name, value in defines.items():
        if not IDENTIFIER.match(name):
            found.append(launch.finding('"%s" is no name: letters, digits and `_`' % name, 'defines', name))
        elif is_whole(value) and value < 0:
            found.append(launch.finding('%s is %d, and may not be below 0' % (name, value), 'defines', name))
        else:
            found += of_kind(launch, defines, ('defines', name), int, True)
    return found


def wrong_launch(launch, table, path, which):
    """What is wrong with the kinds of one launch."""
    found = of_kind(launch, table, path + ('kernel',), str, True) if which != 3 or path else []
    if which == 3 and not path:
        return found
    lengths = {}
    for name in ('global', 'local', 'offset'):
        if name == 'offset' and (which == 1 or name not in table):
            continue
        value = table.get(name)
        if which == 1 or name not in table:
            found += of_kind(launch, table, path + (name,), int if which == 1 else list, True)
            if which == 1 and isinstance(value, list):
                found[-1].text += ' in format 1; format 2 has lists of sizes'
        elif is_whole(value):
            found.append(launch.finding('"%s" is an integer, and format %d has a list of one number for each dimension:'
                                        ' `%s = [%d]`' % (name, which, name, value), *path, name))
        else:
            found += wrong_sizes(launch, table, path + (name,), lengths)
    if len(set(lengths.values())) > 1:
        words = ['"%s" has %s' % (name, counted(length, 'number')) for name, length in lengths.items()]
        found.append(launch.finding('%s: one for each dimension is needed' % listed(words), *path, 'local'))
    return found + wrong_array(launch, table, path + ('arg',)) + wrong_args(launch, path)


def wrong_sizes(launch, table, path, lengths):
    """What is wrong with a list of sizes, whose length is put down."""
    value = table[path[-1]]
    if not isinstance(value, list):
        return of_kind(launch, table, path, list, True)
    if not 1 <= len(value) <= 3:
        return [launch.finding('"%s" has %s, and has from 1 to 3' % (path[-1], counted(len(value), 'number')), *path)]
    lengths[path[-1]] = len(value)
    return [launch.finding('"%s" has %s where an integer has to stand' % (path[-1], kind_of(one)), *path)
            for one in value if not is_whole(one)]


def wrong_args(launch, path):
    """What is wrong with the kinds of the arguments of one launch."""
    found = []
    for number, arg in enumerate(launch.list_of(*path, 'arg')):
        at = path + ('arg', number)
        keys = [name for name in arg if name in ARG]
        if len(keys) != 1:
            text = 'arg %d has %s, and has one of buffer, value and local' % (number + 1, listed(keys) or 'no key')
            found.append(launch.finding(text, *at))
        for name in keys:
            found += of_kind(launch, arg, at + (name,), str if name == 'buffer' else int, True)
    return found


def named_twice(launch, name):
    """What is said of L9 and L10: the buffers that have one name, or one `save`."""
    found, first = [], {}
    for number, buffer in enumerate(launch.buffers()):
        value = buffer.get(name)
        if value in first:
            line = launch.places.line('buffer', first[value], name)
            text = 'the %s "%s" is that of the buffer on line %s too' % (name, value, line)
            found.append(launch.finding(text, 'buffer', number, name))
        elif value is not None:
            first[value] = number
    return found


def bounded(launch, words, name, text):
    """What is said of L15 and L16: the number of the option, or else of the file."""
    option = words.option('--' + name)
    if option is not None:
        return [Finding('the option --%s is %s, and %s' % (name, option, text))]
    return [launch.finding('%s = %s: %s' % (name, said(launch.data.get(name)), text), name)]


def number_of_launches(launch, _):
    """What is said of L17."""
    found = len(launch.data.get('launch', []))
    return [launch.finding('"launch" has %s, and has from 1 to 16' % counted(found, 'launch').replace('launchs',
                           'launches'), 'launch')]


def cache_names(launch, _):
    """What is said of L19."""
    return [launch.finding('the save name "%s" begins with wgcc-cache-, as those of cache files do' % buffer['save'],
                           'buffer', number, 'save')
            for number, buffer in enumerate(launch.buffers()) if buffer.get('save', '').startswith('wgcc-cache-')]


def other_kernels(launch, words):
    """What is said of L18: the names of the launches, of which at most one is that of the object."""
    return [launch.finding('launch %d names the kernel "%s"' % (number + 1, one.get('kernel')), *path, 'kernel')
            for number, (path, one) in enumerate(launch.launches())] + \
           [Finding('%s holds one kernel, the first launch\'s of the launch file that it was built with.'
                    % words.source)]


BY_NUMBER = {
    'L1': lambda launch, words: not_toml(launch),
    'L2': lambda launch, words: unknown_keys(launch),
    'L3': lambda launch, words: wrong_keys(launch),
    'L9': lambda launch, words: named_twice(launch, 'name'),
    'L10': lambda launch, words: named_twice(launch, 'save'),
    'L15': lambda launch, words: bounded(launch, words, 'lanes', 'lanes are 1, 4, 8 or 16'),
    'L16': lambda launch, words: bounded(launch, words, 'turns', 'turns are from 0 to 1000000000000'),
    'L17': number_of_launches,
    'L18': other_kernels,
    'L19': cache_names,
}
