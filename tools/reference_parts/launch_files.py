"""Reads launch files, and binds a launch to its kernel."""
import tomllib

from .numbers import is_number, largest, least
from .refusals import LaunchRefused
from .tokens import NAME

MOST_BYTES = 1048576
MOST_LAUNCHES = 16
MOST_TURNS = 10**12
TURNS = 100000000
LANES = (1, 4, 8, 16)
MOST_BUFFERS, MOST_BYTES_OF_ONE, MOST_BYTES_OF_ALL = 64, 2**26, 2**28
MOST_ITEMS_OF_A_GROUP, MOST_ITEMS, MOST_LOCAL_BYTES = 1024, 2**24, 65536
COMMON_KEYS = {'format', 'lanes', 'turns', 'defines', 'buffer'}
LAUNCH_KEYS = {'kernel', 'global', 'local', 'arg'}
BUFFER_KEYS = ('name', 'bytes', 'load', 'save')
ARGUMENT_KEYS = ('buffer', 'value', 'local')


def is_whole(value):
    """Whether a value of the file is a whole number."""
    return isinstance(value, int) and not isinstance(value, bool)


def has_large(value):
    """Whether a number of the file is beyond 64 bits."""
    if isinstance(value, dict):
        return any(has_large(each) for each in value.values())
    if isinstance(value, list):
        return any(has_large(each) for each in value)
    return is_whole(value) and not -2**63 <= value < 2**63


def tables(value):
    """The tables of a value that is a list of tables or one table."""
    if isinstance(value, list):
        return [each for each in value if isinstance(each, dict)]
    return [value] if isinstance(value, dict) else []


def need(is_so):
    """Refuses the file where a key is missing or wrong."""
    if not is_so:
        raise LaunchRefused(3)


def parsed(data):
    """The table that the bytes of a file are."""
    if len(data) > MOST_BYTES:
        raise LaunchRefused(1)
    try:
        # A byte order mark may stand in front.
        table = tomllib.loads(data.decode('utf-8').removeprefix('\ufeff'))
    except (UnicodeDecodeError, tomllib.TOMLDecodeError, RecursionError, ValueError):
        raise LaunchRefused(1) from None
    if has_large(table):
        raise LaunchRefused(1)
    return table


def check_keys(table, number):
    """Refuses unknown keys of a file of this format."""
    of_launch = LAUNCH_KEYS | ({'offset'} if number > 1 else set())
    of_root = COMMON_KEYS | ({'launch'} if number == 3 else of_launch)
    known = [(table, of_root)]
    known += [(each, BUFFER_KEYS) for each in tables(table.get('buffer', []))]
    launches = tables(table.get('launch', [])) if number == 3 else [table]
    for launch in launches:
        if number == 3:
            known.append((launch, of_launch))
        known += [(each, ARGUMENT_KEYS) for each in tables(launch.get('arg', []))]
    if any(key not in keys for each, keys in known for key in each):
        raise LaunchRefused(2)


def sizes_of(launch, number):
    """The global sizes, the local sizes and the offset of a launch."""
    found = []
    for key in ('global', 'local', 'offset'):
        if key == 'offset' and ('offset' not in launch or number == 1):
            found.append([0] * len(found[0]))
            continue
        need(key in launch)
        value = launch[key]
        if number == 1:
            need(is_whole(value))
            value = [value]
        need(isinstance(value, list) and all(is_whole(each) for each in value))
        found.append(value)
    need(1 <= len(found[0]) <= 3 and all(len(each) == len(found[0]) for each in found))
    return found


def launch_of(launch, number):
    """One launch of a file."""
    need(isinstance(launch.get('kernel'), str))
    sizes = sizes_of(launch, number)
    listed = launch.get('arg', [])
    need(isinstance(listed, list) and all(isinstance(each, dict) for each in listed))
    arguments = []
    for each in listed:
        need(len(each) == 1)
        kind, value = next(iter(each.items()))
        need(isinstance(value, str) if kind == 'buffer' else is_whole(value))
        arguments.append((kind, value))
    return {'kernel': launch['kernel'], 'global': sizes[0], 'local': sizes[1], 'offset': sizes[2],
            'arguments': arguments}


def check_values(table):
    """Refuses keys outside launches that are missing or wrong."""
    need('lanes' not in table or is_whole(table['lanes']))
    need('turns' not in table or is_whole(table['turns']))
    defines, buffers = table.get('defines', {}), table.get('buffer', [])
    need(isinstance(defines, dict))
    for name, value in defines.items():
        need(NAME.fullmatch(name) is not None and is_whole(value) and value >= 0)
    need(isinstance(buffers, list) and all(isinstance(each, dict) for each in buffers))
    for each in buffers:
        need(isinstance(each.get('name'), str) and is_whole(each.get('bytes')))
        need(all(key not in each or isinstance(each[key], str) for key in ('load', 'save')))


def are_distinct(values):
    """Whether no value stands there twice."""
    return len(set(values)) == len(values)


def read_launch_file(data, lanes, turns):
    """What a launch file says; `lanes` and `turns` are those of the command, or None."""
    table = parsed(data)
    has_format = is_whole(table.get('format')) and table['format'] in (1, 2, 3)
    number = table['format'] if has_format else 1
    check_keys(table, number)
    need(has_format)
    check_values(table)
    if number == 3:
        need(isinstance(table.get('launch'), list) and all(isinstance(each, dict) for each in table['launch']))
    launches = [launch_of(each, number) for each in (table['launch'] if number == 3 else [table])]
    buffers = table.get('buffer', [])
    if not are_distinct([each['name'] for each in buffers]):
        raise LaunchRefused(9)
    if not are_distinct([each['save'] for each in buffers if 'save' in each]):
        raise LaunchRefused(10)
    if (table.get('lanes', 8) if lanes is None else lanes) not in LANES:
        raise LaunchRefused(15)
    most = table.get('turns', TURNS) if turns is None else turns
    if not 0 <= most <= MOST_TURNS:
        raise LaunchRefused(16)
    if number == 3 and not 1 <= len(launches) <= MOST_LAUNCHES:
        raise LaunchRefused(17)
    return {'format': number, 'turns': most, 'defines': list(table.get('defines', {}).items()), 'buffers': buffers,
            'launches': launches}


# Binding a launch to its kernel

def product(sizes):
    """The product of sizes."""
    count = 1
    for size in sizes:
        count *= size
    return count


def check_sizes(launch):
    """Refuses the sizes of a launch that do not fit together."""
    whole, part, offset = launch['global'], launch['local'], launch['offset']
    if any(size < 1 for size in whole + part) or any(value < 0 for value in offset):
        raise LaunchRefused(4)
    if product(part) > MOST_ITEMS_OF_A_GROUP or product(whole) > MOST_ITEMS:
        raise LaunchRefused(4)
    if any(all_of % of_one for all_of, of_one in zip(whole, part)):
        raise LaunchRefused(4)


def kind_wanted(symbol):
    """The kind of argument that a parameter takes."""
    if symbol.kind == 'scalar':
        return 'value'
    return 'buffer' if symbol.type.space in ('global', 'constant') else 'local'


def check_arguments(kernel, launch, names):
    """Refuses arguments that do not fit the parameters."""
    pairs = list(zip(kernel.parameters, launch['arguments']))
    if len(launch['arguments']) != len(kernel.parameters):
        raise LaunchRefused(5)
    if any(kind != kind_wanted(symbol) for symbol, (kind, _) in pairs):
        raise LaunchRefused(6)
    for symbol, (kind, value) in pairs:
        if kind == 'value' and is_number(symbol.type) and not least(symbol.type) <= value <= largest(symbol.type):
            raise LaunchRefused(7)
    if any(kind == 'buffer' and value not in names for _, (kind, value) in pairs):
        raise LaunchRefused(8)
    by_space = {space: {value for symbol, (kind, value) in pairs if kind == 'buffer' and symbol.type.space == space}
                for space in ('constant', 'global')}
    if by_space['constant'] & by_space['global']:
        raise LaunchRefused(11)


def bound(kernel, text, launch):
    """A launch whose arguments are bound to the parameters of its kernel."""
    check_sizes(launch)
    names = {each['name']: number for number, each in enumerate(text['buffers'])}
    check_arguments(kernel, launch, names)
    local_sizes = (launch['local'] + [1, 1])[:3]
    if kernel.sizes is not None and list(kernel.sizes) != local_sizes:
        raise LaunchRefused(12)
    given = [value for kind, value in launch['arguments'] if kind == 'local']
    if any(value < 0 for value in given) or kernel.local_bytes + sum(given) > MOST_LOCAL_BYTES:
        raise LaunchRefused(13)
    sizes = [each['bytes'] for each in text['buffers']]
    if any(size < 0 or size > MOST_BYTES_OF_ONE for size in sizes):
        raise LaunchRefused(14)
    if len(sizes) > MOST_BUFFERS or sum(sizes) > MOST_BYTES_OF_ALL:
        raise LaunchRefused(14)
    return {'dimensions': len(launch['global']), 'global': (launch['global'] + [1, 1])[:3], 'local': local_sizes,
            'offset': (launch['offset'] + [0, 0])[:3], 'turns': text['turns'],
            'arguments': [(kind, names[value]) if kind == 'buffer' else (kind, value)
                          for kind, value in launch['arguments']]}
