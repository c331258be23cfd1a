"""What is said of races, where they are asked for: the reference interpreter of the repository looks for them."""
import os
import re
import subprocess

from explain_parts import page
from explain_parts.findings import Finding

REFERENCE = os.path.join(page.ROOT, 'tools', 'reference')
RACE = re.compile(r"not clean: launch (\d+): race \('(.*)', (\d+), (\d+), (\d+)\)$", re.M)
BUFFER = re.compile(r'buffer (\d+)\Z')
# How long the reference may look, in seconds.
LONGEST = 300


def found(words, launch):
    """Warnings: the first race that the reference finds in the launches that ran."""
    if not os.access(REFERENCE, os.X_OK):
        return [Finding('races are not looked for: tools/reference is not there')]
    try:
        ended = subprocess.run([REFERENCE, 'run', words.source, words.launch, '--check-clean'], capture_output=True,
                               stdin=subprocess.DEVNULL, check=False, timeout=LONGEST)
    except subprocess.TimeoutExpired:
        return [Finding('races were looked for over %d s, and the reference was not done' % LONGEST)]
    except OSError as error:
        return [Finding('races are not looked for: tools/reference: %s' % error.strerror)]
    race = RACE.search((ended.stdout + ended.stderr).decode('utf-8', 'replace'))
    return [told(race, launch)] if race else []


def told(race, launch):
    """A race in words."""
    number, name, place, one, other = race.groups()
    buffer = BUFFER.match(name)
    listed = launch.buffers() if launch and launch.data is not None else []
    if buffer and int(buffer[1]) < len(listed):
        name = 'the buffer "%s"' % listed[int(buffer[1])].get('name')
    else:
        name = '`%s`' % name
    return Finding('launch %s races: items %s and %s both access byte %s of %s, one of them stores, and no barrier '
                   'orders the two; what is left there is open' % (number, one, other, place, name))
