"""The runs of one test, and what is wrong with them."""
import json
import os
import shutil
import subprocess
import sys
import tempfile
import time

from . import launches, numbers
from .folders import EXPECTED, Wrong, with_defines, words_of_defines, write
from .runs import call

PORT = os.path.join(os.path.dirname(os.path.dirname(os.path.realpath(__file__))), 'port')
sys.path.insert(0, os.path.dirname(PORT))


class Result:
    """What came of a test at one width."""

    def __init__(self, case, lanes, fault, said, seconds, left):
        self.case, self.lanes, self.fault, self.said, self.seconds, self.left = case, lanes, fault, said, seconds, left


class Room:
    """A new folder with these files, which is gone at the end."""

    def __init__(self, files):
        self.files = files

    def __enter__(self):
        self.path = tempfile.mkdtemp(prefix='wgcc-kernels-')
        for name, content in self.files.items():
            write(os.path.join(self.path, name), content)
        return self.path

    def __exit__(self, *_):
        shutil.rmtree(self.path, ignore_errors=True)


def ported(case):
    """The source of a case behind tools/port, and its launch file: an argument that becomes several is written so."""
    path = os.path.join(case.folder, case.source)
    words = case.defines + words_of_defines(case.document)
    kernels = {launch.get('kernel') for launch in case.launches() if isinstance(launch, dict)}
    for name in sorted(name for name in kernels if isinstance(name, str)):
        words += ['--kernel', name]
    with Room({}) as room:
        parts = os.path.join(room, 'parts')
        ran = subprocess.run([sys.executable, PORT, '--arguments', parts, *words, path], capture_output=True)
        if ran.returncode:
            lines = ran.stderr.decode(errors='replace').strip().split('\n')
            raise Wrong(lines[-1] if lines[-1] else 'port: status %d' % ran.returncode)
        with open(parts, encoding='utf-8') as file:
            several = {kernel: {int(number): each for number, each in own.items()}
                       for kernel, own in json.load(file).items()}
    return ran.stdout, launch_of(case, several, path)


def launch_of(case, several, path):
    """The launch file of a case, with an argument for each number of a vector or a structure."""
    if not several:
        return case.files[case.launch]
    from port_parts.kernels import parameters
    counts = {kernel: len(kinds) for kernel, kinds in
              parameters(path, case.defines + words_of_defines(case.document)).items()}
    if launches.in_parts(case.document, case.launches(), several, counts):
        return launches.text_of(case.document).encode()
    return case.files[case.launch]


def files_for(case, is_ported):
    """The files with which a case is run."""
    files = dict(case.files)
    if is_ported:
        files[case.source], files[case.launch] = ported(case)
    else:
        files[case.launch] = with_defines(files[case.launch], case.defines)
    return files


def kinds_of(case):
    """The type of the numbers of each buffer, as the parameters say to which it is bound, where that is easily seen."""
    from port_parts.kernels import element_types
    try:
        found = element_types(os.path.join(case.folder, case.source), case.defines + words_of_defines(case.document))
    except Exception:  # noqa: BLE001 - what cannot be read has no types, and is shown as ints
        return {}
    kinds = {}
    for launch in case.launches():
        for argument, kind in zip(launch.get('arg', []), found.get(launch.get('kernel'), [])):
            if isinstance(argument, dict) and 'buffer' in argument and kind:
                kinds.setdefault(argument['buffer'], kind)
    return kinds


def run_once(case, files, program, lanes, seconds, is_compared=True):
    """One run of a case."""
    with Room(files) as room:
        start = time.monotonic()
        ended = call(program, ['run', case.source, case.launch, '--lanes', lanes], room, seconds)
        took = time.monotonic() - start
        said = (ended.out + ended.err).decode(errors='replace').strip()
        if ended.status is None:
            where = launches.running(case, program, room, lanes, seconds)
            return Result(case.name, lanes, 'not done in %g s; %s was running' % (seconds, where), said, took, {})
        left = {}
        for name in case.buffers():
            path = os.path.join(room, name)
            if os.path.exists(path):
                with open(path, 'rb') as file:
                    left[name] = file.read()
        fault = fault_of(case, ended.status, said, left) if is_compared else None
        return Result(case.name, lanes, fault, said, took, left)


def fault_of(case, status, said, left):
    """What is wrong with a run that has ended, or nothing."""
    if status != case.status:
        return 'status %d, not %d: %s' % (status, case.status, said)
    if case.line is not None and said != case.line.decode().strip():
        return 'printed %r, not %r' % (said, case.line.decode().strip())
    buffers, kinds, faults = case.buffers(), None, []
    for name, wanted in case.want.items():
        if wanted == left.get(name):
            continue
        kinds = kinds_of(case) if kinds is None else kinds
        shown = buffers.get(name, name)
        faults.append(numbers.difference(shown, wanted, left.get(name), kinds.get(shown)))
    return '\n  '.join(faults) or None


def bless(case, results):
    """Writes what is expected anew, where all widths agree; a line on it."""
    if any(each.fault for each in results):
        return '%s: not blessed: %s' % (case.name, next(each.fault for each in results if each.fault))
    if any(each.left != results[0].left for each in results):
        return '%s: not blessed: the widths leave different buffers' % case.name
    folder = os.path.join(case.folder, EXPECTED)
    changed = 0
    for name in set(case.want) - set(results[0].left):
        os.remove(os.path.join(folder, name))
        changed += 1
    for name, content in results[0].left.items():
        if case.want.get(name) != content:
            write(os.path.join(folder, name), content)
            changed += 1
    return '%s: %d of %d files written' % (case.name, changed, len(results[0].left))
