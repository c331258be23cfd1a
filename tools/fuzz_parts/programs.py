"""Calls of the reference and of the program over the same files."""
import os
import resource
import subprocess
import tempfile

from reference_parts.commands import Memory, call

SECONDS = 300
SOURCE, LAUNCH = 'k.cl', 'k.toml'


class Answer:
    """What a command came to: its status, what it printed on each stream, and the files that are there then."""

    def __init__(self, status, out, err, files):
        self.status, self.out, self.err, self.files = status, out, err, files

    def said(self):
        """The status and what was printed."""
        return self.status, self.out, self.err

    def line(self):
        """`done`, or the line of another end."""
        return 'done' if self.status == 0 else self.err.strip()

    def number(self):
        """The number of a refusal, or nothing."""
        words = self.err.split(' ')
        return words[2] if self.status == 3 and len(words) > 2 else ''


def reference(files, *words):
    """Makes a command of the reference."""
    memory = Memory(dict(files))
    return Answer(*call(words, memory), memory.files)


class Program:
    """The program that is compared; `seconds` is what its calls took of the processor."""

    def __init__(self, path):
        self.path, self.seconds, self.calls = path, 0.0, 0

    def answer(self, files, *commands):
        """Makes commands in a new folder with these files, and gives the answer of the last.

        A command in front of it that does not end with status 0 is the last."""
        with tempfile.TemporaryDirectory(prefix='wgcc-fuzz-') as room:
            for name, content in files.items():
                with open(os.path.join(room, name), 'wb') as file:
                    file.write(content)
            before = resource.getrusage(resource.RUSAGE_CHILDREN)
            for words in commands:
                status, out, err = self.call(words, room)
                self.calls += 1
                if status:
                    break
            after = resource.getrusage(resource.RUSAGE_CHILDREN)
            self.seconds += after.ru_utime + after.ru_stime - before.ru_utime - before.ru_stime
            return Answer(status, out, err, files_in(room))

    def call(self, words, room):
        """Makes one command."""
        try:
            ended = subprocess.run([self.path, *words], cwd=room, stdin=subprocess.DEVNULL, capture_output=True,
                                   timeout=SECONDS)
        except subprocess.TimeoutExpired:
            return -1, '', 'no answer in %d seconds' % SECONDS
        return ended.returncode, ended.stdout.decode('latin-1'), ended.stderr.decode('latin-1')


def files_in(room):
    """The files of a folder."""
    found = {}
    for name in os.listdir(room):
        path = os.path.join(room, name)
        if os.path.isfile(path):
            with open(path, 'rb') as file:
                found[name] = file.read()
    return found


def saved_names(files):
    """The files that a launch of a random kernel saves."""
    return [name[:-len('.bin')] + '.out' for name in files if name.endswith('.bin')]


def saved_fault(want, got):
    """The name of a saved file that is not as it should be, or None."""
    for name in sorted(set(want.files) | set(got.files)):
        if name.endswith('.out') and want.files.get(name) != got.files.get(name):
            return name
    return None
