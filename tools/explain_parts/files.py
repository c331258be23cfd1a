"""What is said of files: those that are not there, cannot be read or written, or have another length than a buffer."""
import os

from explain_parts.findings import Finding
from explain_parts.launch_file import is_whole


def named(words, launch):
    """The files that a command reads: each with what it is and its finding's place, or None."""
    found = [('source' if words.has_source else 'object file', words.source, None),
             ('launch file', words.launch, None)]
    if launch and launch.data is not None and words.command in ('run', 'exec'):
        found += [('file of buffer "%s"' % buffer.get('name'), buffer['load'], ('buffer', number, 'load'))
                  for number, buffer in enumerate(launch.buffers()) if isinstance(buffer.get('load'), str)]
    return [one for one in found if one[1] is not None]


def say(launch, text, path):
    """A finding at a key of the launch file, or without a place."""
    return launch.finding(text, *path) if path else Finding(text)


def missing(words, launch):
    """What is said of status 9."""
    found = []
    for what, name, path in named(words, launch):
        if os.path.exists(name):
            continue
        text = 'not there: %s (the %s)' % (name or '(an empty name)', what)
        beside = os.path.join(os.path.dirname(words.launch or ''), name)
        if name and not os.path.isabs(name):
            text += '; it is looked up from the current folder, %s' % os.getcwd()
            if beside != name and os.path.exists(beside):
                text += '. There is %s' % beside
        if os.path.islink(name):
            text += '; the link leads to nothing'
        found.append(say(launch, text, path))
    return found


def why_not_read(name):
    """Why a file cannot be read, or None."""
    if os.path.isdir(name):
        return 'it is a folder'
    if not os.path.exists(name):
        return None
    try:
        with open(name, 'rb') as file:
            if os.path.isfile(name):
                file.read(1)
    except OSError as error:
        return error.strerror
    return None


def why_not_written(name):
    """Why a file cannot be written, or None. Nothing is written, and no file is made."""
    folder = os.path.dirname(name) or '.'
    if not name:
        return 'the name is empty'
    if os.path.isdir(name):
        return 'it is a folder'
    if not os.path.exists(folder):
        return 'the folder %s is not there' % folder
    if not os.path.isdir(folder):
        return '%s is no folder' % folder
    if os.path.exists(name):
        return None if os.access(name, os.W_OK) else 'it may not be written'
    return None if os.access(folder, os.W_OK) else 'no file may be made in the folder %s' % folder


def not_read_or_written(words, launch):
    """What is said of status 1."""
    found = []
    for what, name, path in named(words, launch):
        why = why_not_read(name)
        if why:
            found.append(say(launch, 'the %s %s cannot be read: %s' % (what, name, why), path))
    if found:
        return found
    if launch and launch.data is not None and words.command in ('run', 'exec'):
        for number, buffer in enumerate(launch.buffers()):
            why = why_not_written(buffer['save']) if isinstance(buffer.get('save'), str) else None
            if why:
                text = 'the buffer "%s" cannot be saved as %s: %s' % (buffer.get('name'), buffer['save'] or '""', why)
                found.append(launch.finding(text, 'buffer', number, 'save'))
    why = why_not_written(words.object) if words.object is not None else None
    if why:
        found.append(Finding('the object file %s cannot be written: %s' % (words.object, why)))
    if '--cache' in words.words and not os.access('.', os.W_OK):
        found.append(Finding('no cache file may be made in the current folder, %s' % os.getcwd()))
    return found or [Finding('All files that the command names can be read, and those that it saves can be written, as '
                             'far as can be seen: the disk may be full, or standard output took nothing.')]


def lengths(words, launch):
    """Warnings: the files that are shorter or longer than the buffer that they start."""
    found = []
    if not launch or launch.data is None or words.command not in ('run', 'exec'):
        return found
    for number, buffer in enumerate(launch.buffers()):
        name, size = buffer.get('load'), buffer.get('bytes')
        if not isinstance(name, str) or not is_whole(size) or not os.path.isfile(name):
            continue
        there = os.path.getsize(name)
        if there == size:
            continue
        text = 'the buffer "%s" has %d bytes, and %s has %d: ' % (buffer.get('name'), size, name, there)
        text += 'it ends with %d zeros' % (size - there) if there < size else \
            'the last %d of the file are not taken' % (there - size)
        found.append(launch.finding(text, 'buffer', number, 'load'))
    return found
