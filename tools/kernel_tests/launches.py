"""Launch files of one launch each, to find the one that takes too long."""
import json
import os
import time

from .folders import write
from .runs import call


def value_text(value):
    """A value as TOML."""
    if isinstance(value, dict):
        return '{ %s }' % ', '.join('%s = %s' % (key, value_text(each)) for key, each in value.items())
    if isinstance(value, list):
        return '[%s]' % ', '.join(value_text(each) for each in value)
    return json.dumps(value)


def text_of(document):
    """A launch file as text: the keys with values, and then the lists of tables."""
    tables = {key: value for key, value in document.items()
              if isinstance(value, list) and value and all(isinstance(each, dict) for each in value)}
    lines = ['%s = %s' % (key, value_text(value)) for key, value in document.items() if key not in tables]
    for key, value in tables.items():
        for each in value:
            lines += ['[[%s]]' % key] + ['%s = %s' % (own, value_text(part)) for own, part in each.items()]
    return '\n'.join(lines) + '\n'


def in_parts(document, launches, parts, counts):
    """Whether arguments of these launches are written as several, in place: a vector or a structure is `value` with a
    list of its numbers. `parts` has the numbers of an argument by the kernel and the argument, `counts` how many
    arguments a kernel has as it is written. ValueError where one has not as many numbers."""
    is_changed = False
    for launch in launches:
        several, given = parts.get(launch.get('kernel'), {}), launch.get('arg', [])
        if not several or len(given) != counts.get(launch['kernel']):
            continue
        found = []
        for number, each in enumerate(given):
            if number not in several:
                found.append(each)
                continue
            value, count = each.get('value') if isinstance(each, dict) else None, len(several[number])
            if not isinstance(value, list) or len(value) != count:
                raise ValueError('argument %d of %s is %d numbers: value = [%s]' % (
                    number + 1, launch['kernel'], count, ', '.join(kind for kind, _ in several[number])))
            found += [{'value': one} for one in value]
        launch['arg'], is_changed = found, True
    return is_changed


def single(document, launch, number):
    """A launch file of one launch; each buffer starts as what the launch before it left."""
    lines = ['format = 3']
    lines += ['%s = %s' % (key, value_text(document[key])) for key in ('lanes', 'turns', 'defines') if key in document]
    for buffer in document.get('buffer', []):
        own = {'name': buffer['name'], 'bytes': buffer['bytes'], 'save': 'left_%s' % buffer['name']}
        if number:
            own['load'] = own['save']
        elif 'load' in buffer:
            own['load'] = buffer['load']
        lines += ['[[buffer]]'] + ['%s = %s' % item for item in ((key, value_text(each)) for key, each in own.items())]
    lines.append('[[launch]]')
    for key, each in launch.items():
        if key in ('kernel', 'global', 'local', 'offset', 'arg'):
            each = [each] if key in ('global', 'local') and isinstance(each, int) else each
            lines.append('%s = %s' % (key, value_text(each)))
    return '\n'.join(lines) + '\n'


def running(case, program, room, lanes, seconds):
    """In words, which launch of a case was running when the time was over."""
    launches = case.launches()
    if len(launches) == 1:
        return 'launch 1 (%s)' % launches[0].get('kernel')
    end = time.monotonic() + seconds
    for number, launch in enumerate(launches):
        write(os.path.join(room, 'one_launch.toml'), single(case.document, launch, number).encode())
        left = end - time.monotonic()
        words = ['run', case.source, 'one_launch.toml', '--lanes', lanes]
        if left <= 0 or call(program, words, room, left).status is None:
            return 'launch %d (%s)' % (number + 1, launch.get('kernel'))
    return 'the last launch'
