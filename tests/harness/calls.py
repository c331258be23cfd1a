"""One call of a program, and what a check comes to."""
import os
import sys

sys.path.insert(0, os.path.join(os.path.dirname(os.path.dirname(os.path.dirname(os.path.realpath(__file__)))), 'tools'))
from kernel_tests import runs

SECONDS = 1200


def call(program, words, room):
    """Runs the program with these words in the folder."""
    return runs.call(program, words, room, SECONDS)


def status_fault(ended, status):
    """What is wrong with the status, or nothing."""
    if ended.status is None:
        return 'did not end in %d seconds' % SECONDS
    if ended.status != status:
        said = (ended.out + ended.err).decode(errors='replace')
        return 'status %d, not %d: %r' % (ended.status, status, said[:300])
    return None


class Check:
    """One thing that is looked at: its name, and a function that gives what is wrong, or nothing, and a line on it."""

    def __init__(self, name, look):
        self.name, self.look = name, look
