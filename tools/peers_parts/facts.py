"""What the host program needs to know of a launch file: see host.c."""
from reference_parts.commands import compiled
from reference_parts.launch_files import bound, read_launch_file
from reference_parts.numbers import SIGNED, SIZE


def word(text):
    """A word of the facts, which may hold no blank."""
    if not text or len(text.split()) != 1:
        raise ValueError('no word: %r' % text)
    return text


def argument_line(symbol, kind, value):
    """The line of an argument."""
    if kind == 'buffer':
        return 'memory %d' % value
    if kind == 'local':
        return 'local %d' % value
    name = symbol.type
    return 'value ' + value.to_bytes(SIZE[name], 'little', signed=name in SIGNED).hex()


def facts_of(files, source, launch):
    """The facts of a launch file, as text, and the names of the files that are saved."""
    text = read_launch_file(files[launch], None, None)
    options = ' '.join('-D%s=%d' % each for each in text['defines'])
    lines = ['source ' + word(source), 'options -cl-std=CL1.2 ' + options]
    for each in text['buffers']:
        lines.append('buffer %d %s %s' % (each['bytes'], word(each.get('load', '-')), word(each.get('save', '-'))))
    for part in text['launches']:
        _, kernel = compiled(files[source].decode('latin-1'), text['defines'], part['kernel'])
        made = bound(kernel, text, part)
        sizes = [*made['global'], *made['local'], *made['offset']]
        lines.append('launch %s %d %s' % (part['kernel'], made['dimensions'], ' '.join(map(str, sizes))))
        lines += [argument_line(symbol, kind, value)
                  for symbol, (kind, value) in zip(kernel.parameters, made['arguments'])]
        lines.append('end')
    return '\n'.join(lines) + '\n', [each['save'] for each in text['buffers'] if 'save' in each]
