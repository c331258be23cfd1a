"""The seconds of the processor that each system takes for the same launch, cold and warm.

Cold: nothing is kept of an earlier run. Warm: the program takes what it compiled from its compile cache, pocl from its
kernel cache. Each number is the least of several runs, the start of the process included."""
from reference_parts.commands import SAMPLE_HEAD, SAMPLE_LAUNCH, SAMPLES

from .systems import Case, in_room

RUNS = 3


def samples():
    """The launches of `wgcc sample`, of 65,536 items each."""
    data = b''.join((at * 2654435769 % 2**32).to_bytes(4, 'little') for at in range(65536))
    for number, body in enumerate(SAMPLES):
        files = {'kernel.cl': (SAMPLE_HEAD + body + '}').encode(), 'launch.toml': SAMPLE_LAUNCH.encode(), 'a': data}
        yield Case('sample %d' % number, files)


def least(make):
    """The least seconds of some runs; None where the first has no answer."""
    found = [make()]
    if found[0] is None:
        return None
    return min(found + [make() for _ in range(RUNS - 1)])


def program_times(path, case):
    """The seconds of the program, cold and warm."""
    plain = [path, 'run', case.source, case.launch]
    cold = least(lambda: in_room(case.files, plain)[3])
    kept = in_room(case.files, plain + ['--cache'])[2]
    warm = least(lambda: in_room({**case.files, **kept}, plain + ['--cache'])[3])
    return cold, warm


def host_times(host, case):
    """The seconds of an implementation of OpenCL, cold and warm."""
    def warm():
        made = host.make(case)
        return None if made.fault else made.seconds

    def cold():
        host.forget()
        return warm()
    return least(cold), least(warm)


def table(path, hosts, cases):
    """The lines of the table."""
    heads = ['wgcc cold', 'wgcc warm'] + ['%s %s' % (host.name, how) for host in hosts for how in ('cold', 'warm')]
    yield '| launch | ' + ' | '.join(heads) + ' |'
    yield '|---|' + '---|' * len(heads)
    for case in cases:
        times = list(program_times(path, case))
        for host in hosts:
            times += host_times(host, case)
        yield '| %s | ' % case.name + ' | '.join('-' if each is None else '%.3f' % each for each in times) + ' |'
