"""A program is run, for at most so long."""
import subprocess


class Ended:
    """How a program ended: its status and what it printed on each stream; no status where it had to be stopped."""

    def __init__(self, status, out, err):
        self.status, self.out, self.err = status, out, err


def call(program, words, room, seconds):
    """Runs the program with these words in the folder, and stops it after so many seconds."""
    try:
        ran = subprocess.run([program, *words], cwd=room, stdin=subprocess.DEVNULL, capture_output=True,
                             timeout=seconds)
    except subprocess.TimeoutExpired:
        return Ended(None, b'', b'')
    return Ended(ran.returncode, ran.stdout, ran.stderr)
