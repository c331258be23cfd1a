"""What the C preprocessor leaves of a source."""
import os
import shutil
import subprocess

from .notes import Refused

# What OpenCL C 1.2 has from the start. The names of limits are those that `wgcc` has too.
NAMES = ['__OPENCL_VERSION__=120', '__OPENCL_C_VERSION__=120', 'CL_VERSION_1_0=100', 'CL_VERSION_1_1=110',
         'CL_VERSION_1_2=120', '__ENDIAN_LITTLE__=1', 'cl_khr_byte_addressable_store=1', 'CHAR_BIT=8',
         'SCHAR_MAX=127', 'SCHAR_MIN=(-127 - 1)', 'CHAR_MAX=127', 'CHAR_MIN=SCHAR_MIN', 'UCHAR_MAX=255',
         'SHRT_MAX=32767', 'SHRT_MIN=(-32767 - 1)', 'USHRT_MAX=65535', 'INT_MAX=2147483647',
         'INT_MIN=(-2147483647 - 1)', 'UINT_MAX=0xffffffffU', 'LONG_MAX=0x7fffffffffffffffL',
         'LONG_MIN=(-0x7fffffffffffffffL - 1)', 'ULONG_MAX=0xffffffffffffffffUL',
         '__kernel_exec(X, T)=__kernel __attribute__((work_group_size_hint(X, 1, 1)))', 'NULL=0']


def preprocessor():
    """The command of a C preprocessor, or None."""
    for words in (['cpp'], ['clang', '-E', '-x', 'c'], ['gcc', '-E', '-x', 'c'], ['cc', '-E', '-x', 'c']):
        if shutil.which(words[0]):
            return words
    return None


def expanded(path, words):
    """The text of the source behind the preprocessor, with its marks of lines."""
    command = preprocessor()
    if command is None:
        raise Refused(None, 'no C preprocessor is there: install cpp, gcc or clang')
    command = [*command, '-w', '-undef', '-nostdinc', '-std=gnu99', '-I', os.path.dirname(path) or '.']
    for name in NAMES:
        command += ['-D', name]
    ran = subprocess.run([*command, *words, path], capture_output=True)
    if ran.returncode:
        raise Refused(None, 'the preprocessor: ' + ran.stderr.decode(errors='replace').strip().split('\n')[0])
    return ran.stdout.decode(errors='surrogateescape')
