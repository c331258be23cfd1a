"""Saves that do not go their way: part of tools/hostile.

A file that the program saves is at every moment the old one or the new one, whole. Here the program is killed at each
system call of a save, has a full disk or a limit on the size of a file, saves into folders and names of many kinds, and
is run a hundred times at once in one folder. Each look answers what went wrong, or None, or why it was left out."""
import os
import re
import resource
import shutil
import signal
import stat
import subprocess
import tempfile
import threading

NOBODY = 65534
SECONDS = 120
KERNEL = b'__kernel void k(__global int *a, __global int *b)\n{ a[get_global_id(0)] += 1; b[get_global_id(0)] = 7; }\n'
OLD = b'what stood there before'
FIVE, SIX, ONE, SEVEN = (bytes([n, 0, 0, 0]) * 4 for n in (5, 6, 1, 7))
RUN = ['run', 'k.cl', 'k.toml']
# The system calls that a save makes.
CALLS = 'openat,open,creat,write,writev,pwrite64,fsync,fdatasync,rename,renameat,renameat2,flock,statx,newfstatat,' \
        'fchmod,fchown,chown,fchownat,unlink,unlinkat,close'


class LeftOut(Exception):
    """The look cannot be made here, and why."""


def launch(save='a.out', other=None, load=None):
    """A launch of four work-items over two buffers of four ints."""
    text = 'format = 1\nkernel = "k"\nglobal = 4\nlocal = 2\n[[buffer]]\nname = "a"\nbytes = 16\nsave = "%s"\n' % save
    text += 'load = "%s"\n' % load if load else ''
    text += '[[buffer]]\nname = "b"\nbytes = 16\n' + ('save = "%s"\n' % other if other else '')
    return (text + '[[arg]]\nbuffer = "a"\n[[arg]]\nbuffer = "b"\n').encode()


def lay(folder, files):
    """Makes the folder anew with these files."""
    shutil.rmtree(folder, ignore_errors=True)
    os.makedirs(folder)
    for name, content in files.items():
        with open(os.path.join(folder, name), 'wb') as it:
            it.write(content)


def files_in(folder):
    """The names and contents of the folder's files."""
    found = {}
    for name in os.listdir(folder):
        with open(os.path.join(folder, name), 'rb') as it:
            found[name] = it.read()
    return found


def called(words, folder, **how):
    """Runs a command in the folder: the status, and what it printed."""
    ran = subprocess.run(words, cwd=folder, stdin=subprocess.DEVNULL, stdout=subprocess.PIPE, stderr=subprocess.STDOUT,
                         timeout=SECONDS, **how)
    return ran.returncode, ran.stdout


def scenarios():
    """Each: a name, the files before, and the words."""
    base = {'k.cl': KERNEL}
    return [('one buffer', {**base, 'k.toml': launch(), 'a.out': OLD}, RUN),
            ('two buffers', {**base, 'k.toml': launch(other='b.out'), 'a.out': OLD, 'b.out': OLD}, RUN),
            ('a buffer that is loaded and saved', {**base, 'k.toml': launch('a.bin', load='a.bin'), 'a.bin': FIVE}, RUN),
            ('build', {**base, 'k.toml': launch(), 'k.wgo': OLD}, ['build', 'k.cl', 'k.toml', 'k.wgo']),
            ('run --cache', {**base, 'k.toml': launch(), 'a.out': OLD}, [*RUN, '--cache'])]


def wanted_of(program, folder, files, words):
    """What the folder holds after a run that nothing disturbs."""
    lay(folder, files)
    status, said = called([program, *words], folder)
    if status != 0:
        raise LeftOut('the program itself ends with %d: %r' % (status, said[:200]))
    return files_in(folder)


def torn(found, before, wanted):
    """The first file that is neither as it was before nor as it is to be, or None. Files beside are not looked at."""
    for name, content in sorted(found.items()):
        if name.startswith('.wgcc-save-'):
            continue
        if content != before.get(name) and content != wanted.get(name):
            return '%s has %d bytes, neither old nor new' % (name, len(content))
    for name in before:
        if name not in found:
            return '%s is gone' % name
    return None


def after_next(program, folder, files, words, wanted):
    """What is wrong after a run on the same files that follows a killed one: what that left beside them has to go."""
    for name, content in files.items():
        with open(os.path.join(folder, name), 'wb') as it:
            it.write(content)
    called([program, *words], folder)
    found = files_in(folder)
    if found != wanted:
        return 'the next run leaves %s for %s' % (sorted(found), sorted(wanted))
    return None


def calls_of_saves(program, folder, files, words):
    """Each system call from the first that names a saved file on: its name, and its number among those of that name."""
    lay(folder, files)
    log = folder + '.trace'
    called(['strace', '-f', '-o', log, '-e', 'trace=' + CALLS, program, *words], folder)
    with open(log, encoding='utf-8', errors='replace') as it:
        lines = [re.match(r'\d+ +(\w+)\((.*)', line) for line in it]
    os.remove(log)
    lines = [line for line in lines if line]
    saves = [at for at, line in enumerate(lines) if '.wgcc-save-' in line[2]]
    if not saves:
        raise LeftOut('no file beside is made')
    first, number, found = max(saves[0] - 3, 0), {}, []
    for at, line in enumerate(lines):
        number[line[1]] = number.get(line[1], 0) + 1
        if at >= first:
            found.append((line[1], number[line[1]]))
    return found


def killed(program, folder):
    """Kills the program at each system call of each scenario's saves."""
    if shutil.which('strace') is None:
        raise LeftOut('the command strace is not there')
    kills = 0
    for name, files, words in scenarios():
        wanted = wanted_of(program, folder, files, words)
        for call, number in calls_of_saves(program, folder, files, words):
            lay(folder, files)
            called(['strace', '-f', '-o', '/dev/null', '-e', 'trace=' + call, '-e',
                    'inject=%s:signal=KILL:when=%d' % (call, number), program, *words], folder)
            kills += 1
            fault = torn(files_in(folder), files, wanted) or after_next(program, folder, files, words, wanted)
            if fault:
                return '%s, killed at %s %d: %s' % (name, call, number, fault)
    return None if kills >= 50 else 'only %d kills were made' % kills


def limited(program, folder):
    """A limit on the size of a file ends the program by a signal in the midst of a save."""
    for name, files, words in scenarios():
        wanted = wanted_of(program, folder, files, words)
        for most in (0, 8):
            lay(folder, files)
            status, _ = called([program, *words], folder,
                               preexec_fn=lambda: resource.setrlimit(resource.RLIMIT_FSIZE, (most, most)))
            if status not in (-signal.SIGXFSZ, 1):
                return '%s, files of at most %d bytes: status %d' % (name, most, status)
            fault = torn(files_in(folder), files, wanted) or after_next(program, folder, files, words, wanted)
            if fault:
                return '%s, files of at most %d bytes: %s' % (name, most, fault)
    return None


def full(program, folder):
    """On a full disk the old content stays, and nothing is left beside it."""
    if os.geteuid() != 0:
        raise LeftOut('only root can make a small disk')
    lay(folder, {})
    if called(['mount', '-t', 'tmpfs', '-o', 'size=64k', 'none', folder], '/')[0] != 0:
        raise LeftOut('no small disk can be made here')
    try:
        for name, content in {'k.cl': KERNEL, 'k.toml': launch(), 'a.out': OLD}.items():
            with open(os.path.join(folder, name), 'wb') as it:
                it.write(content)
        try:
            with open(os.path.join(folder, 'filler'), 'wb', buffering=0) as it:
                while it.write(bytes(512)):
                    pass
        except OSError:
            pass
        status, said = called([program, *RUN], folder)
        found = files_in(folder)
    finally:
        called(['umount', folder], '/')
    if status != 1 or b'cannot read or write' not in said:
        return 'status %d: %r' % (status, said[:100])
    if found['a.out'] != OLD or set(found) != {'k.cl', 'k.toml', 'a.out', 'filler'}:
        return 'it leaves %s' % sorted(found)
    return None


def as_nobody():
    os.setgroups([])
    os.setgid(NOBODY)
    os.setuid(NOBODY)


def other_folders(program, folder):
    """Folders that take no further file, files that may not be written, and permissions that stay."""
    if os.geteuid() != 0:
        raise LeftOut('only root can become another user')
    base = {'k.cl': KERNEL, 'k.toml': launch()}
    for name, before, mode, folder_mode, status, content in (
            ('a file in a folder that may not be written', OLD, 0o666, 0o755, 0, ONE),
            ('no file in a folder that may not be written', None, 0, 0o755, 1, None),
            ('a file that may not be written', OLD, 0o444, 0o777, 1, OLD)):
        lay(folder, {**base, **({'a.out': before} if before else {})})
        if before:
            os.chmod(os.path.join(folder, 'a.out'), mode)
        os.chmod(folder, folder_mode)
        got, _ = called([program, *RUN], folder, preexec_fn=as_nobody)
        found = files_in(folder)
        if got != status or found.get('a.out') != content or set(found) - {'k.cl', 'k.toml', 'a.out'}:
            return '%s: status %d, files %s' % (name, got, sorted(found))
    lay(folder, {**base, 'a.out': OLD})
    os.chmod(os.path.join(folder, 'a.out'), 0o640)
    os.chown(os.path.join(folder, 'a.out'), NOBODY, NOBODY)
    called([program, *RUN], folder)
    kept = os.stat(os.path.join(folder, 'a.out'))
    if (stat.S_IMODE(kept.st_mode), kept.st_uid, kept.st_gid) != (0o640, NOBODY, NOBODY):
        return 'the owner or the permissions of a replaced file changed'
    return None


def other_names(program, folder):
    """Names that are links, pipes and devices are written in place."""
    base = {'k.cl': KERNEL, 'k.toml': launch()}
    lay(folder, {**base, 'target': OLD})
    os.symlink('target', os.path.join(folder, 'a.out'))
    called([program, *RUN], folder)
    if not os.path.islink(os.path.join(folder, 'a.out')) or files_in(folder)['target'] != ONE:
        return 'a link is not written through'
    lay(folder, {**base, 'k.toml': launch('/dev/null')})
    if called([program, *RUN], folder)[0] != 0 or not stat.S_ISCHR(os.stat('/dev/null').st_mode):
        return '/dev/null is replaced'
    lay(folder, base)
    os.mkfifo(os.path.join(folder, 'a.out'))
    got = []

    def read():
        with open(os.path.join(folder, 'a.out'), 'rb') as it:
            got.append(it.read())
    reader = threading.Thread(target=read, daemon=True)
    reader.start()
    status, _ = called([program, *RUN], folder)
    reader.join(SECONDS)
    return None if status == 0 and got == [ONE] else 'a pipe gets %r at status %d' % (got, status)


def without_locks(program, folder):
    """On a file system without locks a file is written in place, and nothing is left beside it."""
    if shutil.which('strace') is None:
        raise LeftOut('the command strace is not there')
    files = {'k.cl': KERNEL, 'k.toml': launch(), 'a.out': OLD}
    lay(folder, files)
    status, _ = called(['strace', '-f', '-o', '/dev/null', '-e', 'trace=flock', '-e', 'inject=flock:error=ENOLCK',
                        program, *RUN], folder)
    found = files_in(folder)
    return None if status == 0 and found == {**files, 'a.out': ONE} else 'status %d, files %s' % (status, sorted(found))


def at_once(program, folder):
    """A hundred runs at once in one folder, over one cache, into one pipe: whole files and whole lines."""
    files = {'k.cl': KERNEL, 'k.toml': launch(other='b.out'), 'a.out': OLD}
    words = [program, *RUN, '--cache']
    wanted = wanted_of(program, folder, files, words[1:])
    lay(folder, files)
    reading, writing = os.pipe()
    runs = [subprocess.Popen(words, cwd=folder, stdin=subprocess.DEVNULL, stdout=writing, stderr=writing)
            for _ in range(100)]
    os.close(writing)
    with open(reading, 'rb') as it:
        said = it.read()
    if any(run.wait(SECONDS) != 0 for run in runs):
        return 'statuses %s' % sorted({run.returncode for run in runs})
    if said != b'wgcc: done, 2 groups, 4 items\n' * 100:
        return 'lines are mixed or missing: %d lines' % said.count(b'\n')
    found = files_in(folder)
    return None if found == wanted else 'it leaves %s' % sorted(found)


LOOKS = [('killed at each system call of a save', killed), ('a limit on the size of files', limited),
         ('a full disk', full), ('folders and files that may not be written', other_folders),
         ('saves to links, pipes and devices', other_names), ('a file system without locks', without_locks),
         ('a hundred runs at once', at_once)]


def looked_at(program, look):
    """What one look found: None, what is wrong, or, as the second, why it was left out."""
    room = tempfile.mkdtemp(prefix='hostile-saves-')
    os.chmod(room, 0o755)
    try:
        return look(program, os.path.join(room, 'folder')), None
    except LeftOut as why:
        return None, str(why)
    finally:
        shutil.rmtree(room, ignore_errors=True)
