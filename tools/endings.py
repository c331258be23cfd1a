"""How the tools end where their words are wrong, or a file is not there or cannot be written: with a plain line, and
status 2."""
import os
import sys


def wrong_words(line):
    """Ends with a line, or with the text that says how a tool is used."""
    print(line, file=sys.stderr)
    sys.exit(2)


def program_of(name, path):
    """The whole path of a program that is to be run; ends where none is there."""
    if not os.path.isfile(path):
        wrong_words('%s: %s: %s' % (name, path, 'is a folder' if os.path.isdir(path) else 'no such program'))
    if not os.access(path, os.X_OK):
        wrong_words('%s: %s is no program' % (name, path))
    return os.path.abspath(path)


def ended(name, main):
    """Runs a tool: its status. Files that fail, and memory that is not there, are told in a line."""
    try:
        return main()
    except BrokenPipeError:
        os.dup2(os.open(os.devnull, os.O_WRONLY), 1)
        return 1
    except OSError as error:
        text = '%s: %s' % (error.filename, error.strerror) if error.filename else str(error)
    except MemoryError:
        text = 'there is not so much memory'
    print('%s: %s' % (name, text), file=sys.stderr)
    return 2
