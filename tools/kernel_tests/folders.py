"""A folder that is a test: what lies in it."""
import os
import shlex
import tomllib

EXPECTED = 'expected'


class Wrong(Exception):
    """A folder that is no test."""


def read(path):
    """The bytes of a file."""
    with open(path, 'rb') as file:
        return file.read()


def write(path, content):
    """Makes a file, and the folders above it."""
    os.makedirs(os.path.dirname(path) or '.', exist_ok=True)
    with open(path, 'wb') as file:
        file.write(content)


def one_of(names, first, ending, folder):
    """The file of an ending: the one with the usual name, or the only one."""
    found = [name for name in names if name.endswith(ending)]
    if first in found:
        return first
    if len(found) != 1:
        raise Wrong('%s: %s' % (folder, 'no file *%s' % ending if not found else 'several files *%s and no %s' % (
            ending, first)))
    return found[0]


def is_test(folder):
    """Whether a folder has a source and a launch file of its own."""
    try:
        names = os.listdir(folder)
    except OSError:
        return False
    return any(name.endswith('.cl') for name in names) and any(name.endswith('.toml') for name in names)


def tests_below(folder):
    """The folders that are tests, from one on."""
    found = []
    for at, folders, _ in os.walk(folder):
        folders.sort()
        if is_test(at):
            found.append(at)
            folders.clear()
    return found


class Case:
    """A test: its name, its files, its source and launch file, the words of its build and what is expected."""

    def __init__(self, name, folder):
        self.name, self.folder = name, folder
        names = sorted(entry for entry in os.listdir(folder) if os.path.isfile(os.path.join(folder, entry)))
        self.source = one_of(names, 'k.cl', '.cl', folder)
        self.launch = one_of(names, 'k.toml', '.toml', folder)
        self.files = {entry: read(os.path.join(folder, entry)) for entry in names}
        self.defines = shlex.split(self.files.get('defines', b'').decode())
        expected = os.path.join(folder, EXPECTED)
        self.has_expected = os.path.isdir(expected)
        self.want = {entry: read(os.path.join(expected, entry)) for entry in
                     sorted(os.listdir(expected))} if self.has_expected else {}
        self.status = int(self.want.pop('status', b'0'))
        self.line = self.want.pop('line', None)
        try:
            self.document = tomllib.loads(self.files[self.launch].decode())
        except (tomllib.TOMLDecodeError, UnicodeDecodeError) as error:
            raise Wrong('%s: %s' % (os.path.join(folder, self.launch), error)) from None

    def buffers(self):
        """The names of the buffers by the files that they are saved as."""
        found = {}
        for buffer in self.document.get('buffer', []):
            if isinstance(buffer, dict) and 'save' in buffer:
                found[buffer['save']] = buffer.get('name', buffer['save'])
        return found

    def launches(self):
        """The launches of the launch file."""
        if isinstance(self.document.get('launch'), list):
            return self.document['launch']
        return [self.document]


def words_of_defines(document):
    """The names that a launch file defines, as words of a build."""
    defines = document.get('defines', {})
    return ['-D%s=%s' % (name, value) for name, value in defines.items()] if isinstance(defines, dict) else []


def given(words):
    """The definitions among the words of a build, each as NAME or NAME=WORDS; None for a word that says more."""
    found, is_next = [], False
    for word in words:
        if is_next or word.startswith('-D') and word != '-D':
            found.append(word if is_next else word[2:])
            is_next = False
        elif word == '-D':
            is_next = True
        elif not word.startswith(('-cl-', '-w', '-W', '-g', '-O')):
            found.append(None)
    return found


def with_defines(text, words):
    """A launch file that defines these names too, each with a number."""
    lines = []
    for word in given(words):
        name, _, value = (word or '').partition('=')
        value = value or '1'
        if not name or not value.isdigit():
            raise Wrong('a word of `defines` is no name with a number: run with --port')
        lines.append('%s = %s\n' % (name, value))
    if not lines:
        return text
    if b'[defines]' in text:
        raise Wrong('both `defines` and the launch file define names: run with --port')
    return text + b'\n[defines]\n' + ''.join(lines).encode()
