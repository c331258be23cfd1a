"""The forms of a package: an archive, a Debian package, and how each is tried in an empty folder."""
import gzip
import hashlib
import io
import os
import re
import shutil
import subprocess
import sys
import tarfile
import tempfile

LIBRARY = 'usr/lib/wgcc'
MANUAL = 'docs/wgcc.1'
COMPLETION = 'docs/wgcc.bash'
# What the Debian package has in folders of the system, and not with the rest.
SYSTEM = {MANUAL: 'usr/share/man/man1/wgcc.1.gz', COMPLETION: 'usr/share/bash-completion/completions/wgcc'}


def zipped(content, seconds):
    """The bytes as gzip has them, with this time."""
    out = io.BytesIO()
    with gzip.GzipFile('', 'wb', 9, out, mtime=seconds) as file:
        file.write(content)
    return out.getvalue()


def folders_of(names):
    """All folders above these names, in order."""
    found = set()
    for name in names:
        parts = name.split('/')[:-1]
        found |= {'/'.join(parts[:count]) for count in range(1, len(parts) + 1)}
    return sorted(found)


def archive(packed, seconds, prefix='', has_folders=False):
    """The bytes of a tar file with gzip: names in order, no owner, and one time. A mode of None makes a link."""
    out = io.BytesIO()
    with tarfile.open(fileobj=out, mode='w', format=tarfile.GNU_FORMAT if has_folders else tarfile.USTAR_FORMAT) as tar:
        for name in folders_of(packed) if has_folders else []:
            entry = tarfile.TarInfo('%s%s/' % (prefix, name))
            entry.type, entry.mode, entry.mtime = tarfile.DIRTYPE, 0o755, seconds
            entry.uname = entry.gname = 'root'
            tar.addfile(entry)
        for name in sorted(packed):
            content, mode = packed[name]
            entry = tarfile.TarInfo(prefix + name)
            entry.mtime = seconds
            entry.uname = entry.gname = 'root' if has_folders else ''
            if mode is None:
                entry.type, entry.linkname, entry.mode = tarfile.SYMTYPE, content, 0o777
                tar.addfile(entry)
            else:
                entry.size, entry.mode = len(content), mode
                tar.addfile(entry, io.BytesIO(content))
    return zipped(out.getvalue(), seconds)


def commands_of(packed):
    """The commands of the Debian package: each with the file of the package that it leads to."""
    found = {'wgcc': 'wgcc'}
    for name, (_, mode) in packed.items():
        folder, _, tool = name.rpartition('/')
        if folder == 'tools' and mode == 0o755:
            found['wgcc-' + tool.replace('_', '-')] = name
    return found


def debian_files(packed, seconds):
    """The files of the Debian package, by their places in the system."""
    found = {}
    for name, (content, mode) in packed.items():
        if name == MANUAL:
            found[SYSTEM[name]] = (zipped(content, seconds), 0o644)
        else:
            found[SYSTEM.get(name, '%s/%s' % (LIBRARY, name))] = (content, mode)
    for command, name in commands_of(packed).items():
        found['usr/bin/' + command] = ('../lib/wgcc/' + name, None)
    found['usr/share/doc/wgcc/README.md'] = ('../../../lib/wgcc/README.md', None)
    return found


def needed_library(program):
    """The newest version of the C library that the program names."""
    versions = [tuple(map(int, found.split(b'.'))) for found in re.findall(rb'GLIBC_(\d+\.\d+)', program)]
    return '.'.join(map(str, max(versions))) if versions else '2.17'


def control(version, program, bytes_of_all):
    """The page of the Debian package that says what it is."""
    return ('Package: wgcc\nVersion: %s\nArchitecture: amd64\nMaintainer: wgcc <wgcc@localhost>\nInstalled-Size: %d\n'
            'Depends: libc6 (>= %s)\nRecommends: bash, python3 (>= 3.11)\nSection: devel\nPriority: optional\n'
            'Description: proved compiler of OpenCL C kernels for an ordinary processor\n'
            ' wgcc compiles kernels in a whole-number subset of OpenCL C 1.2 and runs launches\n'
            ' of them over buffer files, one work-group at a time. Its tools, which need bash\n'
            ' and Python, explain what is wrong, and make and compare buffers.\n'
            % (version, (bytes_of_all + 1023) // 1024, needed_library(program)))


def debian(version, packed, seconds):
    """The bytes of the Debian package."""
    found = debian_files(packed, seconds)
    contents = {name: one for name, one in found.items() if one[1] is not None}
    sums = ''.join('%s  %s\n' % (hashlib.md5(content, usedforsecurity=False).hexdigest(), name)
                   for name, (content, _) in sorted(contents.items()))
    about = control(version, packed['wgcc'][0], sum(len(content) for content, _ in contents.values()))
    parts = [('debian-binary', b'2.0\n'),
             ('control.tar.gz', archive({'control': (about.encode(), 0o644), 'md5sums': (sums.encode(), 0o644)},
                                        seconds, './')),
             ('data.tar.gz', archive(found, seconds, './', True))]
    out = b'!<arch>\n'
    for name, content in parts:
        head = '%-16s%-12d%-6d%-6d%-8s%-10d`\n' % (name, seconds, 0, 0, '100644', len(content))
        out += head.encode() + content + b'\n' * (len(content) % 2)
    return out


class Failed(Exception):
    """What did not go as it should with a package."""


def run(words, folder, what, env=None):
    """Runs words in a folder without the kit; what they print."""
    plain = {'PATH': '/usr/sbin:/usr/bin:/sbin:/bin:%s' % os.path.dirname(sys.executable), 'HOME': folder,
             'LC_ALL': 'C.UTF-8', **(env or {})}
    ended = subprocess.run(words, cwd=folder, env=plain, capture_output=True, stdin=subprocess.DEVNULL, check=False)
    if ended.returncode:
        raise Failed('%s: status %d\n%s' % (what, ended.returncode, (ended.stdout + ended.stderr).decode()[-2000:]))
    return ended.stdout.decode()


def try_tree(top, examples):
    """Tries an unpacked package: the sums, the examples, a first kernel and what the tools say."""
    run(['sha256sum', '--quiet', '-c', 'SHA256SUMS'], top, 'the sums')
    run(['examples/run', *examples], top, 'the examples')
    with tempfile.TemporaryDirectory(prefix='package-first-') as room:
        said = run([os.path.join(top, 'examples', 'new'), 'mine'], room, 'a first kernel')
        if '%s/wgcc run kernel.cl launch.toml' % os.path.realpath(top) not in said:
            raise Failed('examples/new names another program: %s' % said)
        mine = os.path.join(room, 'mine')
        program = os.path.join(top, 'wgcc')
        said = run([os.path.join(top, 'tools', 'explain'), program, 'run', 'kernel.cl', 'launch.toml'], mine, 'a run')
        if said != 'wgcc: done, 4 groups, 64 items\n':
            raise Failed('the first kernel printed %r' % said)
        said = run([os.path.join(top, 'tools', 'buffers'), 'show', 'sums.out', 'int'], mine, 'its buffer')
        if len(said.split()) != 5:
            raise Failed('the first kernel left %r' % said)


def try_archive(path):
    """Unpacks an archive in an empty folder and tries it."""
    with tempfile.TemporaryDirectory(prefix='package-tar-') as room:
        run(['tar', 'xf', os.path.abspath(path)], room, 'tar')
        tops = os.listdir(room)
        if len(tops) != 1:
            raise Failed('%s has %s at its top' % (path, tops))
        try_tree(os.path.join(room, tops[0]), [])


def try_debian(path):
    """Installs a Debian package in an empty folder, tries it there, and removes it again."""
    if shutil.which('dpkg') is None:
        raise Failed('the command dpkg is not there')
    with tempfile.TemporaryDirectory(prefix='package-deb-') as room:
        state = os.path.join(room, 'var', 'lib', 'dpkg')
        for folder in ('info', 'updates', 'triggers'):
            os.makedirs(os.path.join(state, folder))
        for name in ('status', 'available'):
            with open(os.path.join(state, name), 'w', encoding='utf-8'):
                pass
        before = files_below(room, state)
        dpkg = ['dpkg', '--instdir=' + room, '--admindir=' + state, '--log=/dev/null', '--force-depends',
                '--force-not-root', '--force-bad-path']
        run([*dpkg, '-i', os.path.abspath(path)], room, 'dpkg -i')
        try_tree(os.path.join(room, LIBRARY), ['add_one', 'reduction', 'refused_source'])
        for name in os.listdir(os.path.join(room, 'usr', 'bin')):
            if not os.access(os.path.join(room, 'usr', 'bin', name), os.X_OK):
                raise Failed('usr/bin/%s leads to no program' % name)
        with gzip.open(os.path.join(room, SYSTEM[MANUAL])) as file:
            if not file.read().startswith(b'.'):
                raise Failed('the page of the manual is none')
        run([*dpkg, '-r', 'wgcc'], room, 'dpkg -r')
        left = files_below(room, state) - before
        if left:
            raise Failed('dpkg -r leaves %s' % ' '.join(sorted(left)[:5]))


def files_below(folder, apart):
    """The files below a folder, those of another apart."""
    return {os.path.join(at, name) for at, _, names in os.walk(folder) if not at.startswith(apart) for name in names}


def try_package(path):
    """Tries an archive or a Debian package."""
    if path.endswith('.deb'):
        try_debian(path)
    elif path.endswith('.tar.gz'):
        try_archive(path)
    else:
        raise Failed('%s is neither a .tar.gz nor a .deb' % path)
