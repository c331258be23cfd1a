"""Cases that are folders whose commands leave a file: the last command is run over each beginning of that file, and
over it with each byte changed."""
from .calls import Check, call
from .files import Room, files_of
from .rows import NO_FILES, commands_of, files_as_left

# The file is an entry of the compile cache, or the object file of the commands.
ENTRY = 'wgcc-cache-'
OBJECT = 'kernel.wgo'
NO_OBJECT = b'wgcc: kernel.wgo:1:1: E601 not an object\n'
# How a run of an object that a changed byte makes may end.
ENDS = (0, 4, 5, 6, 7, 8)
# So many runs are one check.
AT_ONCE = 64


def is_kept(name):
    """Whether it is the name of the file."""
    return name.startswith(ENTRY) or name == OBJECT


def front_of(name, content):
    """How many bytes stand before the object, or are an object file's letters: with one of them changed it is none."""
    return 4 if name == OBJECT else 8 + int.from_bytes(content[:8], 'little')


def changed(content, at):
    """The bytes with another one there."""
    return content[:at] + bytes([content[at] ^ 1]) + content[at + 1:]


class Left:
    """What the commands left: all files, the name of the file, and what the last command printed."""

    def __init__(self, program, commands, files):
        with Room(files) as room:
            ends = [call(program, words, room) for words in commands]
            self.files = files_as_left(room)
        names = [name for name in self.files if is_kept(name)]
        self.fault = None if all(end.status == 0 for end in ends) and len(names) == 1 else 'no such file was left'
        self.name = names[0] if names else ''
        self.said = ends[-1].out


class Cuts:
    """A case that is a folder with commands which leave such a file."""

    def __init__(self, name, folder):
        self.name, self.folder = name, folder
        self.files = files_of(folder, NO_FILES)
        self.commands = commands_of(folder)

    def bless(self, programs, is_named):
        """Nothing is expected that could be written."""

    def again(self, program, name, content):
        """How the last command ends over the file with these bytes, and the files that it leaves."""
        with Room({**self.files, name: content}) as room:
            return call(program, self.commands[-1], room), files_as_left(room)

    def try_fault(self, program, left, content, is_none):
        """What is wrong with a run over the file with these bytes, or nothing; `is_none` where they are none."""
        ended, files = self.again(program, left.name, content)
        if left.name == OBJECT:
            refused = ended.status == 3 and ended.err == NO_OBJECT and files == {**self.files, OBJECT: content}
            as_wanted = refused or (not is_none and ended.status in ENDS)
        else:
            whole = ended.status == 0 and ended.out == left.said and files == left.files
            as_wanted = whole or (not is_none and ended.status in ENDS)
        return None if as_wanted else 'status %s, %r' % (ended.status, ended.err)

    def look(self, program, first, is_cut):
        """Makes runs from one length or place on; what is wrong with the first that is not as expected."""
        left = Left(program, self.commands, self.files)
        if left.fault:
            return left.fault, b''
        whole = left.files[left.name]
        for at in range(first, min(first + AT_ONCE, len(whole))):
            is_none = is_cut or at < front_of(left.name, whole)
            fault = self.try_fault(program, left, whole[:at] if is_cut else changed(whole, at), is_none)
            if fault:
                return 'byte %d: %s' % (at, fault), b''
        return None, left.said

    def checks(self, programs):
        """Checks of so many runs each."""
        left = Left(programs.wgcc, self.commands, self.files)
        size = len(left.files.get(left.name, b'0'))
        return [Check('%s, %s from byte %d' % (self.name, 'cut' if is_cut else 'changed', first),
                      lambda first=first, is_cut=is_cut: self.look(programs.wgcc, first, is_cut))
                for is_cut in (True, False) for first in range(0, size, AT_ONCE)]
