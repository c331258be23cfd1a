"""What is compared. Each mode makes files from a seed, and looks at them: the look gives what differs, or nothing.

A unit with vectors is measured by the compiler as the unit without vectors that it makes of it, which the
reference does not make. So E419 and E420 of such units are counted and not compared; of other numbers from E401 on
the place is not compared; and `plan` may name helping variables, and keep for each item what the reference keeps
once."""
import random

from .damage import damaged_launch_file, damaged_source, with_faults
from .kernels import Generator
from .programs import LAUNCH, SOURCE, reference, saved_fault, saved_names
from .vector_statements import VectorGenerator

LANES = ('1', '4', '8', '16')
OBJECT = 'k.wgo'
RUN = ('run', SOURCE, LAUNCH)
PLAN = ('plan', SOURCE, LAUNCH)
TOO_LARGE = ('E419', 'E420')
TURNS = ('--turns', '20000')
ENDS_OF_CLEAN = (0, 2, 3, 4, 9)


class Case:
    """One seed of a mode, and the counts of what came of the cases before."""

    def __init__(self, mode, seed, has_vectors, program, counts):
        self.mode, self.seed, self.has_vectors = mode, seed, has_vectors
        self.program, self.counts = program, counts
        self.random = random.Random('%s %d' % (mode, seed))

    def count(self, what):
        """Counts something."""
        self.counts[what] = self.counts.get(what, 0) + 1

    def kernel(self):
        """The files of a random kernel."""
        return (VectorGenerator if self.has_vectors else Generator)(self.seed).make()

    def make(self):
        """The files of the case."""
        files = self.kernel()
        if self.mode == 'faults':
            return with_faults(self.random, files)
        if self.mode == 'sources':
            return {**files, SOURCE: damaged_source(self.random, files[SOURCE], self.has_vectors)}
        if self.mode == 'launches':
            return {**files, LAUNCH: damaged_launch_file(self.random, files[LAUNCH])}
        return files

    def look(self, files):
        """What differs, or nothing."""
        looks = {'kernels': self.look_at_runs, 'objects': self.look_at_objects, 'cache': self.look_at_cache,
                 'plans': self.look_at_plan, 'faults': self.look_at_faults, 'sources': self.look_at_source,
                 'launches': self.look_at_launch_file}
        return looks[self.mode](files)

    # Clean kernels

    def clean_answer(self, files):
        """The answer of the reference, or None where the launch is not clean."""
        want = reference(files, *RUN, '--if-clean')
        if want.status != 0:
            self.count('left out: refused or not clean')
            return None
        return want

    def at_widths(self, files, want, commands_at):
        """Compares what commands leave at each number of lanes."""
        for lanes in LANES:
            got = self.program.answer(files, *commands_at(lanes))
            if self.is_too_large(got):
                return None
            self.count('launches')
            if got.said() != want.said():
                return 'with %s lanes: %r, expected %r' % (lanes, got.said(), want.said())
            name = saved_fault(want, got)
            if name:
                return 'with %s lanes: %s differs' % (lanes, name)
        return None

    def is_too_large(self, got):
        """Whether a unit is too large as the compiler measures it."""
        if self.has_vectors and got.number() in TOO_LARGE:
            self.count('left out: too large without vectors')
            return True
        return False

    def look_at_runs(self, files):
        """A clean kernel, run at each number of lanes."""
        want = self.clean_answer(files)
        return want and self.at_widths(files, want, lambda lanes: [(*RUN, '--lanes', lanes)])

    def look_at_objects(self, files):
        """The same by an object file."""
        want = self.clean_answer(files)
        execute = ('exec', OBJECT, LAUNCH)
        return want and self.at_widths(
            files, want, lambda lanes: [('build', SOURCE, LAUNCH, OBJECT, '--lanes', lanes), execute])

    def look_at_cache(self, files):
        """The same by the compile cache: compiled at the first run, and taken from an entry at the second."""
        want = self.clean_answer(files)
        return want and self.at_widths(files, want, lambda lanes: [(*RUN, '--lanes', lanes, '--cache')] * 2)

    def look_at_plan(self, files):
        """The text of `plan`."""
        want, got = reference(files, *PLAN), self.program.answer(files, PLAN)
        self.count('plans')
        if self.is_too_large(got) or got.said() == want.said():
            return None
        if self.has_vectors and got.status == want.status == 0 and is_looser_plan(got.out, want.out):
            self.count('plans that keep more than the reference')
            return None
        return 'plan: %r, expected %r' % (got.said(), want.said())

    # Faults

    def look_at_faults(self, files):
        """A kernel with faults: the program's end must be one of the outcomes that the reference finds."""
        found = reference(files, *RUN, '--all-outcomes')
        if found.status != 0:
            self.count('left out: refused')
            return None
        outcomes = found.out.split('\n')[:-1]
        if 'race' in outcomes:
            self.count('left out: races')
            return None
        self.count('outcomes ' + '+'.join(sorted({kind_of(line) for line in outcomes})))
        done = reference(files, *RUN, '--turns', '1000000') if 'done' in outcomes else None
        for lanes in LANES:
            got = self.program.answer(files, (*RUN, '--lanes', lanes))
            if self.is_too_large(got):
                return None
            self.count('launches with faults')
            fault = self.fault_of_end(files, got, outcomes, done)
            if fault:
                return 'with %s lanes: %s' % (lanes, fault)
        return None

    def fault_of_end(self, files, got, outcomes, done):
        """What is wrong with an end, or nothing."""
        if got.line() not in outcomes:
            return '%r is none of %r' % (got.said(), outcomes)
        if got.status == 0 and done is not None and done.status == 0 and saved_fault(done, got):
            return '%s differs' % saved_fault(done, got)
        if got.status != 0 and any(name in got.files for name in saved_names(files)):
            return 'a file was saved'
        return None

    # Damage

    def look_at_source(self, files):
        """A damaged source, by `plan`."""
        want = reference(files, *PLAN)
        self.count('damaged sources with status %d' % want.status)
        got = self.program.answer(files, PLAN)
        return self.damage_fault(want, got)

    def look_at_launch_file(self, files):
        """A damaged launch file, by `run` where what it says is clean, and else by `plan`."""
        clean = reference(files, *RUN, *TURNS, '--if-clean')
        words = (*RUN, *TURNS) if clean.status in ENDS_OF_CLEAN else PLAN
        want = reference(files, *words)
        if '' in want.files:
            self.count('left out: saved under an empty name')
            return None
        self.count('damaged launch files with status %d' % want.status)
        got = self.program.answer(files, words)
        fault = self.damage_fault(want, got)
        if fault is None and want.status == 0 and words[0] == 'run' and saved_fault(want, got):
            return '%s differs' % saved_fault(want, got)
        return fault

    def damage_fault(self, want, got):
        """What is wrong with the answer to damage, or nothing. The place of E302 is open."""
        if want.said() == got.said() or want.number() == got.number() == 'E302' or self.is_too_large(got):
            return None
        if self.has_vectors and want.number() == got.number() and want.number().startswith('E4'):
            self.count('the same number at another place')
            return None
        if self.has_vectors and got.status == want.status == 0 and is_looser_plan(got.out, want.out):
            return None
        return '%r, expected %r' % (got.said(), want.said())


def kind_of(line):
    """The kind of an outcome: done, range, parted, out of turns, or more."""
    if not line.startswith('wgcc'):
        return line
    words = [word for word in line.split(': ') if not word.startswith('launch ')]
    return 'turns' if words[1] == 'out of turns' else words[1]


def is_looser_plan(got, want):
    """Whether a plan differs in helping variables alone, and in variables that it keeps for each item."""
    wanted = want.split('\n')
    known = {line.split(' ', 1)[-1] for line in wanted}
    found = [line for line in got.split('\n') if line.split(' ', 1)[-1] in known]
    return len(found) == len(wanted) and all(one == other or (one.startswith('item') and other == 'once' + one[4:])
                                             for one, other in zip(found, wanted))


MODES = ('kernels', 'objects', 'cache', 'plans', 'faults', 'sources', 'launches')
