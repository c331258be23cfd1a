"""The files of a case and of a run: how they stand in a folder, and how they differ."""
import difflib
import json
import os
import shutil
import tempfile

MOST_LINES = 24


def read(path):
    """The bytes of a file."""
    with open(path, 'rb') as file:
        return file.read()


def write(path, content):
    """Makes the file, and the folders above it."""
    os.makedirs(os.path.dirname(path), exist_ok=True)
    with open(path, 'wb') as file:
        file.write(content)


def from_hex(text):
    """The bytes of hex digits; blanks and what follows a '#' are left out."""
    return bytes.fromhex(''.join(line.split('#')[0] for line in text.decode().split('\n')))


def to_hex(content):
    """The text of bytes as hex digits, with the numbers as a comment where they are ints."""
    lines = []
    if content and len(content) % 4 == 0 and len(content) <= 64:
        ints = (int.from_bytes(content[at:at + 4], 'little', signed=True) for at in range(0, len(content), 4))
        lines.append('# int: ' + ', '.join(str(n) for n in ints))
    for at in range(0, len(content), 16):
        lines.append(content[at:at + 16].hex(' ', 4))
    return ('\n'.join(lines) + '\n').encode()


def from_repeat(text):
    """The bytes of lines of a count and a JSON text: each text so many times, one behind the other."""
    pieces = []
    for line in text.decode().split('\n'):
        if line and not line.startswith('#'):
            count, piece = line.split(' ', 1)
            pieces.append(json.loads(piece) * int(count))
    return ''.join(pieces).encode()


WRITTEN_AS = {'.hex': from_hex, '.repeat': from_repeat}


def files_of(folder, left_out=()):
    """The files below a folder by the names that they have in a run, without those left out at its top."""
    found = {}
    for at, folders, names in os.walk(folder):
        folders[:] = [name for name in folders if os.path.relpath(os.path.join(at, name), folder) not in left_out]
        for name in names:
            path = os.path.join(at, name)
            short, ending = os.path.splitext(os.path.relpath(path, folder))
            if short + ending in left_out:
                continue
            if ending in WRITTEN_AS:
                found[short] = WRITTEN_AS[ending](read(path))
            else:
                found[short + ending] = read(path)
    return found


class Room:
    """A new folder with copies of these files, which is gone at the end."""

    def __init__(self, files):
        self.files = files

    def __enter__(self):
        self.path = tempfile.mkdtemp(prefix='wgcc-test-')
        for name, content in self.files.items():
            write(os.path.join(self.path, name), content)
        return self.path

    def __exit__(self, *_):
        shutil.rmtree(self.path, ignore_errors=True)


def lines_of(content):
    """The lines of a file; those of one that is no text as rows of hex digits."""
    if content is None:
        return ['(no file)']
    try:
        text = content.decode()
        if all(c.isprintable() or c == '\n' for c in text):
            return text.split('\n') if text else ['(nothing)']
    except UnicodeDecodeError:
        pass
    return ['%6d  %s' % (at, content[at:at + 16].hex(' ', 4)) for at in range(0, len(content), 16)]


def difference(name, wanted, found):
    """A short unified difference of what is expected and what came."""
    lines = list(difflib.unified_diff(lines_of(wanted), lines_of(found), 'expected ' + name, 'found ' + name,
                                      lineterm='', n=2))
    if len(lines) > MOST_LINES:
        lines[MOST_LINES:] = ['.. and %d lines more' % (len(lines) - MOST_LINES)]
    return '\n'.join('  ' + line[:240] for line in lines)
