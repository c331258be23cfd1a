"""The systems that are compared: the program, pocl and Oclgrind."""
import os
import resource
import shutil
import signal
import subprocess
import tempfile

from fuzz_parts.programs import files_in

from .facts import facts_of

HERE = os.path.dirname(os.path.realpath(__file__))
FACTS = 'launch.facts'
# The seconds of the processor after which a system has no answer.
SECONDS = 20


class Made:
    """What a system made of a launch: the saved files, or why there are none; and the seconds of the processor."""

    def __init__(self, files, fault, seconds=0.0):
        self.files, self.fault, self.seconds = files, fault, seconds


def build_host(folder):
    """Builds the host program; its path, or None where a compiler or OpenCL is not there."""
    path = os.path.join(folder, 'host')
    words = [os.environ.get('CC', 'cc'), '-O1', '-o', path, os.path.join(HERE, 'host.c'), '-lOpenCL']
    try:
        made = subprocess.run(words, capture_output=True, check=False)
    except OSError:
        return None
    return path if made.returncode == 0 else None


def bounded():
    """Bounds the seconds of the processor of the process that is begun."""
    resource.setrlimit(resource.RLIMIT_CPU, (SECONDS, SECONDS + 1))


def in_room(files, words, environment=None):
    """Runs a command in a new folder with these files: its status, what it printed, the files, the seconds."""
    with tempfile.TemporaryDirectory(prefix='wgcc-peer-') as room:
        for name, content in files.items():
            path = os.path.join(room, name)
            os.makedirs(os.path.dirname(path), exist_ok=True)
            with open(path, 'wb') as file:
                file.write(content)
        before = resource.getrusage(resource.RUSAGE_CHILDREN)
        ended = subprocess.run(words, cwd=room, stdin=subprocess.DEVNULL, capture_output=True, preexec_fn=bounded,
                               env={**os.environ, **(environment or {})}, check=False)
        status, said = ended.returncode, (ended.stdout + ended.stderr).decode('utf-8', 'replace')
        if status in (-signal.SIGXCPU, -signal.SIGKILL):
            said = 'no answer in %d seconds of the processor' % SECONDS
        after = resource.getrusage(resource.RUSAGE_CHILDREN)
        spent = after.ru_utime + after.ru_stime - before.ru_utime - before.ru_stime
        return status, said, files_in(room), spent


def saved(found, names):
    """The saved files among those that are there."""
    return {name: found[name] for name in names if name in found}


class Compiled:
    """The program of this repository."""

    name = 'wgcc'

    def __init__(self, path, words=()):
        self.path, self.words = path, words

    def make(self, case):
        """Makes a launch."""
        words = [self.path, 'run', case.source, case.launch, *self.words]
        status, said, found, seconds = in_room(case.files, words)
        return Made(saved(found, case.saves), None, seconds) if status == 0 else Made(None, said.strip(), seconds)


def first_error(said):
    """The line of what was printed that says most."""
    lines = [line for line in said.splitlines() if line.strip() and not line.startswith('platform')]
    errors = [line for line in lines if 'error' in line.lower()]
    return (errors + lines + ['nothing said'])[0].split('/')[-1][:160]


class Host:
    """An implementation of OpenCL, by the host program. A kernel cache of its own is kept in `cache`; `options` is what
    its compiler is given beside what the launch file gives."""

    def __init__(self, name, host, front=(), options=''):
        self.name, self.host, self.front, self.options = name, host, list(front), options
        self.cache = tempfile.mkdtemp(prefix='wgcc-peer-cache-')

    def forget(self):
        """Empties the kernel cache."""
        shutil.rmtree(self.cache, ignore_errors=True)
        os.makedirs(self.cache)

    def make(self, case):
        """Makes a launch."""
        files = {**case.files, FACTS: case.facts.replace('\noptions ', '\noptions %s ' % self.options, 1).encode()}
        words = [*self.front, self.host, FACTS]
        status, said, found, seconds = in_room(files, words, {'POCL_CACHE_DIR': self.cache})
        if status != 0:
            return Made(None, 'status %d, %s' % (status, first_error(said)), seconds)
        return Made(saved(found, case.saves), None, seconds)


class Case:
    """A launch file with its source and buffers."""

    def __init__(self, name, files, source='kernel.cl', launch='launch.toml'):
        self.name, self.files, self.source, self.launch = name, files, source, launch
        self.facts, self.saves = facts_of(files, source, launch)


def peers(host):
    """The implementations of OpenCL that are there."""
    found = []
    if shutil.which('oclgrind'):
        # What its compiler makes of a `switch` with optimisations it runs wrongly: see docs/EVIDENCE.md.
        found.append(Host('oclgrind', host, ['oclgrind', '--max-errors', '0'], '-cl-opt-disable'))
    status, said, _, _ = in_room({'nothing': b''}, [host, 'nothing'])
    if status == 0 and 'Portable Computing Language' in said:
        found.append(Host('pocl', host))
    return found
