"""What is said of a run that ended early: status 6 and 7; and warnings of a source that runs."""
from explain_parts import tokens as cutting
from explain_parts.findings import Finding, listed
from explain_parts.unit import statement_end

LOOPS = ('for', 'while', 'do')


def loops_of(source, function):
    """The tokens at which the loops of a function begin; the `while` of a `do` is none."""
    tokens, found, ends = source.tokens, [], set()
    for at in range(function.body, min(function.end, len(tokens))):
        if tokens[at].text == 'do':
            ends.add(statement_end(tokens, at + 1, function.end) + 1)
        if tokens[at].text in LOOPS and at not in ends:
            found.append(tokens[at])
    return found


def out_of_turns(source, words, launch, number):
    """What is said of status 7: how many turns there were, and which loops the kernel has."""
    option = words.option('--turns')
    turns = option or (launch.data.get('turns') if launch and launch.data is not None else None)
    text = 'The items of the launch began more than %s loop iterations' % (turns or '100000000')
    text += ', by the option --turns.' if option else ', by the launch file.' if turns is not None else \
        ', as many as they may where nothing else is said: `turns = ..` or `--turns ..` says it.'
    found = [Finding(text)]
    if source and launch and launch.data is not None:
        launches = launch.launches()
        path, one = launches[number] if number < len(launches) else ((), {})
        kernel = source.unit.named(one.get('kernel'))
        places = ['`%s` at %s' % (token.text, token.at()) for function in source.unit.reached(kernel)
                  for token in loops_of(source, function)]
        if places:
            found.append(Finding('The loops of kernel `%s`: %s.' % (one.get('kernel'), listed(places))))
    return found


def assigned_conditions(source):
    """Warnings: conditions of `if` and `while` that are one plain assignment, without parentheses of its own."""
    found, tokens = [], source.tokens
    for at, token in enumerate(tokens):
        if token.text not in ('if', 'while') or at + 1 >= len(tokens) or tokens[at + 1].text != '(':
            continue
        index, close = at + 2, cutting.matching(tokens, at + 1)
        while index < close:
            if tokens[index].text in cutting.CLOSING:
                index = cutting.matching(tokens, index)
            elif tokens[index].text == '=':
                sign = tokens[index]
                text = '`=` assigns in the condition of this `%s`; `==` compares' % token.text
                found.append(Finding(text, source.name, sign.line, sign.column, True))
                break
            index += 1
    return found
