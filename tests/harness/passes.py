"""Golden texts: what each pass makes of a kernel, as `wgcc_dump` prints it."""
import os

from .calls import Check, call, status_fault
from .files import Room, difference, read, write

STAGES = ('tokens', 'program', 'kernel', 'simplified', 'varying', 'regions', 'plan', 'code', 'tidied')
KERNEL = 'k'


class Golden:
    """A case that is a folder with a kernel and the text of some stages."""

    def __init__(self, name, folder):
        self.name, self.folder = name, folder

    def kernel(self):
        """The name of the kernel."""
        path = os.path.join(self.folder, 'kernel')
        return read(path).decode().strip() if os.path.exists(path) else KERNEL

    def path_of(self, stage):
        """Where the text of a stage stands."""
        return os.path.join(self.folder, 'expected', stage + '.txt')

    def stages(self):
        """The stages that are wanted: those of the file `stages`, and those that have a text."""
        path = os.path.join(self.folder, 'stages')
        listed = read(path).decode().split() if os.path.exists(path) else []
        unknown = sorted({*listed} - {*STAGES})
        if unknown:
            raise SystemExit('%s: no stage: %s' % (path, ' '.join(unknown)))
        return [stage for stage in STAGES if stage in listed or os.path.exists(self.path_of(stage))]

    def dumped(self, programs, stage):
        """Runs the program that prints a stage."""
        with Room({'kernel.cl': read(os.path.join(self.folder, 'kernel.cl'))}) as room:
            return call(programs.dump, [stage, 'kernel.cl', self.kernel()], room)

    def checks(self, programs):
        """A check for each stage; none where there is no program that prints them."""
        if programs.dump is None:
            return []
        return [Check('%s: %s' % (self.name, stage), self.looker(programs, stage)) for stage in self.stages()]

    def looker(self, programs, stage):
        """The function that looks at one stage."""
        def look():
            if not os.path.exists(self.path_of(stage)):
                return 'the text of %s is not there; --bless writes it' % stage, ''
            ended = self.dumped(programs, stage)
            fault = status_fault(ended, 0)
            if fault is None and ended.out != read(self.path_of(stage)):
                fault = difference(stage + '.txt', read(self.path_of(stage)), ended.out)
            return fault, stage
        return look

    def bless(self, programs, _):
        """Writes the text of each wanted stage anew."""
        if programs.dump is None:
            return
        for stage in self.stages():
            ended = self.dumped(programs, stage)
            if ended.status == 0:
                write(self.path_of(stage), ended.out)
