"""Random damage to sources and launch files, and random faults."""
from reference_parts.tokens import tokens_of

WORDS = ['0', '08', '1.5', '@', '/*', '(', ')', '{', '}', ';', ',', '*', '&', '=', '+=', '++', 'int', 'float', 'int3',
         'const', '__local', '__global', '__constant', 'bool', 'void', 'return', 'break', 'continue', 'case', 'default',
         'if', 'else', 'goto', 'x', 'l', 'g', 't', 'a', '-1', '99999999999999999999', '#', '\n#if\n', '\n#define l 1\n',
         '\n#endif\n', '\n#undef X\n', 'barrier', 'min', 'sizeof', '?', ':', '[', ']', '\\']
VECTOR_WORDS = ['.x', '.xy', '.', 'int4', 'uchar2', '(int4)(1)', '.s0', '.hi', '.wzyx'] * 2
LINES = ['lanes = 3', 'turns = -1', 'foo = 1', 'format = 2', 'format = 4', 'offset = [0]', '[[buffer]]', '[[arg]]',
         'defines = { A = -1 }', 'defines = { l = 3 }', 'lanes = "8"', 'turns = 1.5', 'value = 300', 'local = 70000',
         '[[launch]]']
VALUES = ['0', '-1', '1', '3', '2147483648', '"a"', '""', '[]', '[1]', '[2, 2]', '[1, 1, 1, 1]', 'true', '1.0', '{}',
          '70000', '100000000000000', '99999999999999999999', "'x'", '0x10', '2000-01-01']
# Edits that make a kernel leave its arrays, part at a barrier or turn for long.
FAULTS = [('& 31]', '& 63]'), ('& 7]', '& 31]'), ('& 3]', '& 7]'), ('get_group_id(', 'get_local_id('),
          ('get_num_groups(', 'get_local_id('), (' n)', ' l)'), ('(n ', '(l '), ('& 3)', '& 255)'),
          ('t[l]', 't[l + n]'), ('out[g]', 'out[g + (n & 1)]'), ('break;', 'continue;'), ('if (', 'if (l & '),
          ('while (', 'while (l + ')]
TURNS = [0, 1, 3, 10, 50]


def damaged_source(random, source, has_vectors):
    """A source some of whose tokens are dropped, doubled, exchanged or replaced."""
    text = source.decode('latin-1')
    tokens = tokens_of(text)
    words, between, at = [token.word for token in tokens], [], 0
    for token in tokens:
        between.append(text[at:token.start])
        at = token.end
    others = WORDS + (VECTOR_WORDS if has_vectors else [])
    for _ in range(random.choice([1, 1, 1, 2, 3])):
        one, other, kind = random.randrange(len(words)), random.randrange(len(words)), random.random()
        if kind < .25:
            words[one] = ''
        elif kind < .4:
            words[one] += ' ' + words[one]
        elif kind < .6:
            words[one], words[other] = words[other], words[one]
        else:
            words[one] = words[other] if kind < .8 else random.choice(others)
    return (''.join(blank + word for blank, word in zip(between, words)) + text[at:]).encode('latin-1')


def damaged_launch_file(random, text):
    """A launch file some of whose lines are dropped, doubled or changed."""
    lines = text.decode().split('\n')
    for _ in range(random.choice([1, 1, 2])):
        at, kind = random.randrange(len(lines)), random.random()
        if kind < .25:
            lines[at] = ''
        elif kind < .45:
            lines.insert(at, random.choice(lines))
        elif kind < .6:
            lines.insert(at, random.choice(LINES))
        elif '=' in lines[at]:
            lines[at] = lines[at].split('=')[0] + '= ' + random.choice(VALUES)
    return '\n'.join(lines).encode()


def with_faults(random, files):
    """The files of a kernel with some faults put in, and perhaps few turns."""
    text = files['k.cl'].decode()
    for _ in range(random.choice([1, 1, 2, 3])):
        old, new = random.choice(FAULTS)
        places = [at for at in range(len(text)) if text.startswith(old, at)]
        if places:
            at = random.choice(places)
            text = text[:at] + new + text[at + len(old):]
    launch = files['k.toml']
    if random.random() < .5:
        launch = launch.replace(b'turns = 100000', b'turns = %d' % random.choice(TURNS))
    return {**files, 'k.cl': text.encode(), 'k.toml': launch}
