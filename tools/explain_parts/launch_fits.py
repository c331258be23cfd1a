"""What is wrong with a launch against its kernel: L4 to L8 and L11 to L14, with the argument and the parameter."""
from explain_parts.findings import Finding, counted, listed, said_near
from explain_parts.launch_file import is_whole
from explain_parts.unit import bytes_of

RANGES = {'char': (-128, 127), 'uchar': (0, 255), 'short': (-32768, 32767), 'ushort': (0, 65535),
          'int': (-1 << 31, (1 << 31) - 1), 'uint': (0, (1 << 32) - 1), 'long': (-1 << 63, (1 << 63) - 1),
          'ulong': (0, (1 << 64) - 1)}
MOST_ITEMS, MOST_IN_GROUP = 1 << 24, 1024
MOST_BUFFER, MOST_TOGETHER, MOST_LOCAL = 1 << 26, 1 << 28, 65536


class Fit:
    """One launch, its path in the file, its number where there are several, and the kernel's definition, or None."""

    def __init__(self, launch, number, path, table, unit):
        self.launch, self.path, self.table, self.unit = launch, path, table, unit
        self.which = 'launch %d: ' % (number + 1) if launch.format() == 3 else ''
        found = unit.named(table.get('kernel')) if unit else None
        self.kernel = found if found and found.is_kernel else None
        self.arguments = launch.list_of(*path, 'arg')
        self.parameters = self.kernel.parameters if self.kernel else []

    def say(self, text, *path):
        """A finding at a key of this launch."""
        return self.launch.finding(self.which + text, *self.path, *path)

    def pairs(self):
        """The arguments with their parameters, each with its number from 0."""
        return [(number, argument, parameter) for number, (argument, parameter)
                in enumerate(zip(self.arguments, self.parameters)) if parameter]

    def sizes(self, name):
        """The sizes of this name in each dimension."""
        value = self.table.get(name)
        return [value] if is_whole(value) else value if isinstance(value, list) else []

    def buffer(self, name):
        """The number and the table of a buffer of this name, or None."""
        for number, buffer in enumerate(self.launch.buffers()):
            if buffer.get('name') == name:
                return number, buffer
        return None


def kind_wanted(parameter):
    """What an argument for this parameter has to be."""
    if not parameter.has_star:
        return 'value'
    return 'local' if parameter.space == 'local' else 'buffer'


def wrong_sizes(fit):
    """What is said of L4."""
    found = []
    sizes, locals_ = fit.sizes('global'), fit.sizes('local')
    for name, values in (('global', sizes), ('local', locals_)):
        found += [fit.say('"%s" has the size %d, which is below 1' % (name, one), name) for one in values if one < 1]
    for at, (size, local) in enumerate(zip(sizes, locals_)):
        where = '[%d]' % at if len(sizes) > 1 else ''
        if local > 0 and size > 0 and size % local:
            text = 'global%s = %d is no multiple of local%s = %d' % (where, size, where, local)
            found.append(fit.say(text, 'global'))
    found += [fit.say('the offset %d is below 0' % one, 'offset') for one in fit.sizes('offset') if one < 0]
    for name, values, most, what in (('local', locals_, MOST_IN_GROUP, 'a group'),
                                     ('global', sizes, MOST_ITEMS, 'the launch')):
        product = 1
        for one in values:
            product *= max(one, 1)
        if product > most:
            found.append(fit.say('%s has %d work-items, and may have %d' % (what, product, most), name))
    return found


def wrong_count(fit):
    """What is said of L5."""
    given, wanted = len(fit.arguments), len(fit.parameters)
    if fit.kernel is None or given == wanted:
        return []
    text = 'kernel `%s` has %s, and the launch gives %d arg' % (fit.kernel.name, counted(wanted, 'parameter'), given)
    if given < wanted:
        missing = ['%d, `%s`' % (at + 1, parameter.text if parameter else '?')
                   for at, parameter in enumerate(fit.parameters) if at >= given]
        text += ': no arg for parameter %s' % listed(missing)
    else:
        extra = ['%d (%s)' % (at + 1, written(argument)) for at, argument in enumerate(fit.arguments) if at >= wanted]
        text += ': too many are arg %s' % listed(extra)
    finding = fit.say(text, 'arg', given - 1) if given else fit.say(text, 'arg')
    place = fit.kernel.token
    rest = ', '.join(parameter.text for parameter in fit.parameters if parameter)
    return [finding, Finding('kernel `%s(%s)` stands at %s of the source.' % (fit.kernel.name, rest, place.at()))]


def written(argument):
    """An argument as it is written."""
    return ', '.join('%s = %s' % (name, '"%s"' % value if isinstance(value, str) else value)
                     for name, value in argument.items())


def about(number, argument, parameter):
    """An argument and its parameter, in words."""
    return 'arg %d is %s, and parameter %d is `%s`' % (number + 1, written(argument), number + 1, parameter.text)


def wrong_kinds(fit):
    """What is said of L6."""
    needs = {'value': 'a number: `value = ..`', 'buffer': 'a buffer: `buffer = ".."`',
             'local': 'bytes of local memory: `local = ..`'}
    return [fit.say('%s, which needs %s' % (about(number, argument, parameter), needs[kind_wanted(parameter)]),
                    'arg', number)
            for number, argument, parameter in fit.pairs() if kind_wanted(parameter) not in argument]


def wrong_values(fit):
    """What is said of L7."""
    found = []
    for number, argument, parameter in fit.pairs():
        low, high = RANGES.get(parameter.type, (None, None))
        value = argument.get('value')
        if is_whole(value) and low is not None and not low <= value <= high:
            text = '%s: the values of %s are %d to %d' % (about(number, argument, parameter), parameter.type, low, high)
            found.append(fit.say(text, 'arg', number))
    return found


def unknown_buffers(fit):
    """What is said of L8."""
    names = [buffer.get('name') for buffer in fit.launch.buffers()]
    known = 'the buffers are %s' % listed('"%s"' % name for name in names) if names else 'no buffer is listed'
    found = []
    for number, argument in enumerate(fit.arguments):
        name = argument.get('buffer')
        if name is None or name in names:
            continue
        parameter = fit.parameters[number] if number < len(fit.parameters) else None
        of = ' (parameter `%s`)' % parameter.text if parameter else ''
        text = 'arg %d names the buffer "%s"%s; %s.%s' % (number + 1, name, of, known, said_near(name, names))
        found.append(fit.say(text, 'arg', number))
    return found


def shared_constants(fit):
    """What is said of L11."""
    uses = {}
    for number, argument, parameter in fit.pairs():
        if 'buffer' in argument:
            uses.setdefault(argument['buffer'], {}).setdefault(parameter.space, (number, parameter))
    found = []
    for name, spaces in uses.items():
        if 'constant' in spaces and len(spaces) > 1:
            constant, other = spaces['constant'], next(one for space, one in spaces.items() if space != 'constant')
            text = 'the buffer "%s" is bound to `%s` (arg %d) and to `%s` (arg %d)' % (
                name, constant[1].text, constant[0] + 1, other[1].text, other[0] + 1)
            found.append(fit.say(text, 'arg', max(constant[0], other[0])))
    return found


def other_size(fit):
    """What is said of L12."""
    if fit.kernel is None:
        return []
    tokens = fit.unit.tokens
    for index in range(*fit.kernel.head):
        if tokens[index].text == 'reqd_work_group_size':
            words = [token.text for token in tokens[index + 2:fit.kernel.head[1]]]
            asked = ' '.join(words[:words.index(')')]) if ')' in words else ''
            local = fit.sizes('local')
            text = 'kernel `%s` requires the local sizes (%s), and "local" is %s' % (
                fit.kernel.name, asked.replace(' ,', ','), ', '.join(map(str, local)))
            return [fit.say(text, 'local'), Finding('The attribute stands at %s of the source.' % tokens[index].at())]
    return []


def wrong_local(fit):
    """What is said of L13."""
    found = [fit.say('%s: it is below 0' % about(number, argument, parameter), 'arg', number)
             for number, argument, parameter in fit.pairs()
             if is_whole(argument.get('local')) and argument['local'] < 0]
    given = sum(argument['local'] for argument in fit.arguments if is_whole(argument.get('local')))
    declared, parts = declared_local(fit)
    if not found and given and (declared is None or given + declared > MOST_LOCAL):
        of = 'an unknown number' if declared is None else str(declared)
        text = 'the launch gives %d bytes of local memory and the kernel declares %s%s; together they may be %d' % (
            given, of, ' (%s)' % listed(parts) if parts else '', MOST_LOCAL)
        found.append(fit.say(text, 'arg'))
    return found


def declared_local(fit):
    """The bytes of local memory that the kernel declares, or None, and the names of what has them."""
    total, names = 0, []
    for one in fit.unit.declarations(fit.kernel) if fit.kernel else []:
        if one.space == 'local' and not one.has_star and not one.is_parameter:
            size = bytes_of(one.type) or 0
            for length in one.lengths:
                if len(length) != 1 or not length[0].text.isdigit():
                    return None, []
                size *= int(length[0].text)
            total += size
            names.append('`%s`' % one.name)
    return total, names


def wrong_buffers(fit):
    """What is said of L14."""
    buffers = fit.launch.buffers()
    found = []
    for number, buffer in enumerate(buffers):
        size = buffer.get('bytes')
        if is_whole(size) and not 0 <= size <= MOST_BUFFER:
            text = 'the buffer "%s" has %d bytes; a buffer has from 0 to %d' % (buffer.get('name'), size, MOST_BUFFER)
            found.append(fit.launch.finding(text, 'buffer', number, 'bytes'))
    if len(buffers) > 64:
        found.append(fit.launch.finding('there are %d buffers, and may be 64' % len(buffers), 'buffer'))
    total = sum(buffer['bytes'] for buffer in buffers if is_whole(buffer.get('bytes')) and buffer['bytes'] > 0)
    if total > MOST_TOGETHER and not found:
        text = 'the buffers have %d bytes together, and may have %d' % (total, MOST_TOGETHER)
        found.append(fit.launch.finding(text, 'buffer'))
    return found


BY_NUMBER = {'L4': wrong_sizes, 'L5': wrong_count, 'L6': wrong_kinds, 'L7': wrong_values, 'L8': unknown_buffers,
             'L11': shared_constants, 'L12': other_size, 'L13': wrong_local, 'L14': wrong_buffers}


def findings(number, launch, unit):
    """What is said of a number: of the first launch of which there is something to say."""
    for at, (path, table) in enumerate(launch.launches()):
        found = BY_NUMBER[number](Fit(launch, at, path, table, unit))
        if found:
            return found
    return []
