"""The form of a listing of lane code: its nodes and its steps, and how many an iteration takes."""
import re

# Of each step of lane code its fields, in order; a code's listing has nothing else below its nodes.
STEPS = {name: fields.split() for name, fields in (row.split(':') for row in '''Const:to of value
Copy:to from mask
Unary:op of to a mask
Binary:op of to a b mask
Builtin:f of to a b c mask
Convert:to kind from was mask
Spread:to from
First:to from of mask
Ask:what to dim mask
Argument:number to mask
Load:site of root index to mask
Store:site of root index from mask
Clear:array mask
ColumnGet:column to
ColumnPut:column from mask
OnceGet:slot to
OncePut:slot from
VoteGet:to
VotePut:from mask
Test:to from mask
MaskAnd:to a b
MaskOr:to a b
MaskLess:to a b
Jump:target
SkipNone:mask target
SkipZero:from target
Turn:mask target
Mark:site mask'''.split('\n'))}
NODES = ('items', 'seq', 'vote', 'loop', 'loop after', 'test', 'yes', 'no', 'mixed', 'body', 'rest')


def step_of(line):
    """The step's number and name, or None where the line is no step of the table."""
    for kind in ('Param', 'Constant', 'Local', 'Private'):
        line = line.replace(kind + ' ', kind + '_')
    words = line.split(' ')
    if len(words) < 2 or not words[0].isdecimal() or words[1] not in STEPS:
        return None
    if [word.split('=')[0] for word in words[2:]] != STEPS[words[1]]:
        return None
    return int(words[0]), words[1]


def counts_fault(counts, steps):
    """What is wrong with how often steps, with their first fields, stand in a listing, or nothing."""
    for line in filter(None, counts.split('\n')):
        count, step = line.split(' ', 1)
        there = sum(1 for text in steps if (text + ' ').startswith(step + ' '))
        if there != int(count):
            return 'not %s, but %d' % (line, there)
    return None


def innermost(text):
    """The steps from a code's innermost loop's first to its turn: of all codes the loop with the fewest."""
    turns = [(int(at), int(target)) for at, target in re.findall(r'^ *(\d+) Turn .*target=(\d+)', text, re.M)]
    return min((at - target + 1 for at, target in turns), default=0)


def group_loop(text):
    """The steps of the codes of the test and the body of the last loop of the group, those of a code's own loops once."""
    inside, depth, count = False, 0, 0
    for line in text.split('\n'):
        word = line.lstrip(' ')
        indent = len(line) - len(word)
        if word in ('loop', 'loop after'):
            inside, depth, count = True, indent, 0
        elif inside and (indent <= depth or (word == 'rest' and indent == depth + 2)):
            inside = False
        elif inside and step_of(word):
            count += 1
    return count


MEASURES = {'innermost': innermost, 'loop': group_loop}


def iterations_fault(wanted, text):
    """What is wrong with the steps of an iteration, or nothing: lines of a measure and a number."""
    for line in filter(None, wanted.split('\n')):
        name, number = line.split(' ')
        there = MEASURES[name](text)
        if there != int(number):
            return 'not %s, but %d' % (line, there)
    return None


def listing_fault(text, counts):
    """What is wrong with the form of a listing, behind its first line, or with how often steps stand in it."""
    steps = []
    number = 0
    for line in text.rstrip('\n').split('\n')[1:]:
        step = step_of(line.lstrip(' '))
        if line.lstrip(' ') in NODES:
            number = 0
        elif step is None or step[0] != number:
            return 'no node and no step %d: %s' % (number, line)
        else:
            number += 1
            steps.append(line.lstrip(' ').split(' ', 1)[1])
    return counts_fault(counts, steps)
