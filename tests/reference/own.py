"""Checks of what the reference has beyond the program: numbers, races, all outcomes, and random orders; and of the
random kernels and the minimiser of tools/fuzz."""
import random

from fuzz_parts.damage import damaged_source
from fuzz_parts.kernels import Generator
from fuzz_parts.minimiser import Minimiser
from fuzz_parts.plain_kernels import PlainGenerator, PlainVectorGenerator
from fuzz_parts.programs import reference
from fuzz_parts.vector_statements import VectorGenerator
from reference_parts.commands import Memory, call
from reference_parts.numbers import OPERATORS, built_in, common, promoted
from reference_parts.tokens import tokens_of, value_and_type

LAUNCH = '''format = 1
kernel = "k"
global = %d
local = %d
turns = %d
[[buffer]]
name = "a"
bytes = 16
save = "a.out"
[[arg]]
buffer = "a"
'''
HEAD = '__kernel void k(__global int *a) { int l = get_local_id(0); '


def run(body, *words, whole=4, part=4, turns=1000):
    """A kernel with this body, run with further words: what is printed, and the buffer that is left or None."""
    memory = Memory({'k.cl': (HEAD + body + '}').encode(), 'k.toml': (LAUNCH % (whole, part, turns)).encode()})
    _, out, err = call(['run', 'k.cl', 'k.toml', *words], memory)
    left = memory.files.get('a.out')
    return out + err, None if left is None else [int.from_bytes(left[at:at + 4], 'little') for at in range(0, 16, 4)]


def same(found, want):
    """The fault of a check: nothing where both are the same."""
    return None if found == want else '  found %r, expected %r' % (found, want)


def outcomes(body, *want, **sizes):
    """A check that a launch has these outcomes and no others."""
    found = run(body, '--all-outcomes', **sizes)[0].split('\n')[:-1]
    return same(found, sorted(want))


def check_numbers():
    """Operators at the ends of the types."""
    found = [OPERATORS['/', 'int'](-2**31, -1), OPERATORS['%', 'int'](7, 0), OPERATORS['<<', 'int'](1, 33),
             built_in('mul_hi', 'long', [-2**63, 2]), built_in('rotate', 'uchar', [0x81, 1]),
             built_in('clz', 'short', [0]), common('uint', 'long'), promoted('ushort')]
    return same(found, [-2**31, 7, 2, -1, 3, 16, 'long', 'int'])


def check_tokens():
    """Numbers and marks."""
    found = [value_and_type('0xFFFFFFFF'), value_and_type('4294967295'), value_and_type('08'),
             [token.word for token in tokens_of('a+++b>>=1')]]
    return same(found, [(4294967295, 'uint'), (4294967295, 'long'), None, ['a', '++', '+', 'b', '>>=', '1']])


def check_race():
    """Two items that store to one place race; with a barrier between the two they do not."""
    stores = run('a[0] = l;', '--check-clean')[0].startswith('not clean: launch 1: race')
    ordered = run('a[l] = l; barrier(CLK_GLOBAL_MEM_FENCE); a[l] += a[3 - l] * 0;', '--check-clean')[0]
    apart = run('if (l == 0) a[0] = 1; barrier(CLK_GLOBAL_MEM_FENCE); a[1 + (l & 0)] = l;', '--all-outcomes')[0]
    return same([stores, ordered[:9], apart], [True, 'not clean', 'race\n'])


def check_outcomes_of_faults():
    """Any item that faults may be the one that is told."""
    return outcomes('a[l + 2] = l;', 'wgcc: range: group 0, item 2, 1:61', 'wgcc: range: group 0, item 3, 1:61')


def check_outcomes_of_parted_items():
    """Items at different barriers: those of which another can no longer come to the barrier are told."""
    return outcomes('if (l == 1) barrier(CLK_LOCAL_MEM_FENCE);', 'wgcc: parted: group 0, item 1, 1:73')


def check_outcomes_of_turns():
    """A launch that needs more turns than it has may end without them, or be done where items turn together."""
    return outcomes('for (int i = 0; i < l; i++) a[l] += i;', 'done', 'wgcc: out of turns', turns=3)


def check_orders():
    """A clean launch leaves the same in every order."""
    body = '__local int t[4]; t[l] = l * l; barrier(CLK_LOCAL_MEM_FENCE); a[l] = t[3 - l];'
    found = [run(body, '--seed', str(seed)) for seed in range(5)] + [run(body)]
    return same(found, [('wgcc: done, 1 groups, 4 items\n', [9, 4, 1, 0])] * 6)


def plan_of(functions, test):
    """The plan of a kernel with these functions, in which a loop with a barrier holds a way out under this test."""
    body = 'for (int i = 0; i < 2; i++) { barrier(CLK_LOCAL_MEM_FENCE); switch (%s) { case 1: break; } }' % test
    memory = Memory({'k.cl': (functions + HEAD + body + '}').encode(), 'k.toml': (LAUNCH % (4, 4, 9)).encode()})
    _, out, err = call(['plan', 'k.cl', 'k.toml'], memory)
    return (out + err).split('\n')[-2].split(' ')[0]


def check_results_that_vary():
    """The result of a function counts as a variable that each `return` assigns: a `continue` under a condition that
    varies makes it vary, and where no `return` stands it does not vary."""
    loop = 'int f(int n) { for (int i = 0; i < n; i++) { if (i == 3) continue; } %s} '
    found = [plan_of(loop % end, 'f(l)') for end in ('return 1; ', '')]
    return same(found, ['item', 'once'])


def check_vectors():
    """A vector statement reads its leaves before it stores."""
    body = 'int4 v = (int4)(1, 2, 3, l); v.xy = v.yx; a[l] = v.x * 100 + v.y * 10 + v.w;'
    return same(run(body)[1], [210, 211, 212, 213])


def check_random_kernels():
    """Random kernels are accepted and clean, and the same seed makes the same files."""
    found = []
    for generator in (Generator, VectorGenerator, PlainGenerator, PlainVectorGenerator):
        for seed in range(3):
            files = generator(seed).make()
            found += [reference(files, 'run', 'k.cl', 'k.toml', '--if-clean').status, files == generator(seed).make()]
    return same(found, [0, True] * 12)


def check_damage():
    """Damage changes a source, and is the same for the same seed."""
    source = Generator(1).make()['k.cl']
    first, second = [damaged_source(random.Random(1), source, False) for _ in range(2)]
    return same([first == second, first == source], [True, False])


def check_minimiser():
    """A source is shrunk to what still differs, here to a store of 7."""
    files = {'k.cl': b'void f() {\n  if (x) {\n    a[(1 + (2 * 3))] = 7;\n  }\n  b = 8;\n}\n'}
    small = Minimiser(lambda files: b'= 7' in files['k.cl'] and b'a[(' in files['k.cl'], files).run()
    return same(small['k.cl'], b'    a[(0)] = 7;')


def checks():
    """The checks of this file, each a name and a function that gives what is wrong."""
    return [('own/' + name[len('check_'):], made) for name, made in globals().items() if name.startswith('check_')]
