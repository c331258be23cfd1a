"""What is wrong with a name: E401, E422, and where else the name stands."""
from explain_parts import built_in, page, tokens as cutting
from explain_parts.expressions import WORDS
from explain_parts.findings import Finding, counted, listed, said_near
from explain_parts.unit import split


def unknown_name(source, line, column):
    """What is said of E401."""
    here = [index for index, token in enumerate(source.tokens) if (token.line, token.column) == (line, column)]
    if not here:
        return []
    found = []
    for index in here:
        token = source.tokens[index]
        is_call = index + 1 < len(source.tokens) and source.tokens[index + 1].text == '('
        if token.kind == 'name' and not is_known(source, index, is_call):
            found += unknown(source, index, is_call)
    macro = source.tokens[here[0]].macro
    if macro and found:
        place = source.expansion.places.get(macro)
        found.append(Finding('It comes from the macro `%s`%s.' % (macro, ', which is defined at %s' % place.at()
                                                                 if place else '')))
    return found


def is_known(source, index, is_call):
    """Whether the name at this token is visible, or no name that is looked up."""
    name = source.tokens[index].text
    if name in WORDS:
        return True
    if is_call and source.unit.seen(index, name):
        return False
    if is_call:
        return name in built_in.KNOWN or any(one.name == name and not one.is_kernel and one.head[0] < index
                                             for one in source.unit.functions)
    return bool(source.unit.seen(index, name))


def unknown(source, index, is_call):
    """What is said of one unknown name."""
    token = source.tokens[index]
    name = token.text
    if is_call:
        return unknown_function(source, index, name)
    for one in source.unit.seen(len(source.tokens), name) + elsewhere(source, index, name):
        return [where_declared(source, one, index)]
    if name in built_in.FLAGS:
        return [Finding('`%s` is known in the argument of a barrier or a fence alone.' % name)]
    visible = {one.name for one in source.unit.seen(index)} | set(source.expansion.macros)
    text = '`%s` is no variable, array or macro that is visible here.' % name
    return [Finding(text + said_near(name, visible | set(built_in.FLAGS if in_flags(source, index) else ())))]


def in_flags(source, index):
    """Whether a token stands in the argument of a barrier or a fence."""
    at, depth = index - 1, 0
    while at > 0 and source.tokens[at].text not in ';{}':
        depth += {')': 1, '(': -1}.get(source.tokens[at].text, 0)
        if depth < 0:
            return source.tokens[at - 1].text in built_in.BARRIERS
        at -= 1
    return False


def elsewhere(source, index, name):
    """What is declared under this name in the same function, though it is not visible at the token."""
    function = source.unit.around(index)
    return [one for one in source.unit.declarations(function) if one.name == name] if function else []


def where_declared(source, one, index):
    """What is said of a name that is declared, and not visible here."""
    at = one.token.at()
    if one.seen_from > index:
        return Finding('`%s` is declared at %s, and visible behind that declaration alone.' % (one.name, at))
    last = source.tokens[min(one.seen_to, len(source.tokens) - 1)]
    return Finding('`%s` is declared at %s, and visible up to %s alone, where its block or statement ends.'
                   % (one.name, at, last.at()))


def unknown_function(source, index, name):
    """What is said of a call of an unknown function."""
    own = source.unit.named(name)
    hiding = source.unit.seen(index, name)
    if hiding:
        return [Finding('`%s` is the variable of %s here, which hides the function of its name.'
                        % (name, hiding[-1].token.at()))]
    if any(one.is_kernel for one in source.unit.functions if one.name == name):
        return [Finding('`%s` is a kernel, and a kernel is not called.' % name), row('kernel_that_is_called')]
    if own:
        return [Finding('`%s` is defined at %s, behind this call: declare it in front by a prototype.'
                        % (name, own.token.at()))]
    if built_in.is_other(name):
        return [Finding(built_in.said_of(name))]
    visible = built_in.KNOWN + [one.name for one in source.unit.functions if not one.is_kernel]
    near = said_near(name, visible)
    if near:
        return [Finding('`%s` is no function that is visible here.%s' % (name, near))]
    return [Finding('`%s` is no function that is visible here; the source defines %s.'
                    % (name, listed('`%s`' % one.name for one in source.unit.functions if not one.is_kernel) or
                       'none but kernels'))]


def row(case):
    """The row of a case of docs/PORTING.md as a finding."""
    return Finding(page.row_of(case) or '')


def no_such_kernel(source, launch):
    """What is said of E422: the kernels that there are."""
    kernels = source.unit.kernels()
    found = []
    for path, one in launch.launches() if launch and launch.data is not None else []:
        name = one.get('kernel')
        if name in [kernel.name for kernel in kernels]:
            continue
        text = 'no kernel `%s` in %s.%s' % (name, source.name, said_near(str(name), [one.name for one in kernels]))
        found.append(launch.finding(text, *path, 'kernel'))
        same = source.unit.named(name)
        if same:
            found.append(Finding('`%s` at %s is a function without `__kernel`%s.' % (name, same.token.at(),
                         '' if same.body is not None and not same.is_kernel else ' or without a body')))
        break
    if kernels:
        found.append(Finding('The kernels of %s: %s.' % (source.name, listed(
            '`%s` (%s)' % (one.name, one.token.at()) for one in kernels))))
    else:
        found.append(Finding('%s defines no kernel: a kernel begins with `__kernel void`.' % source.name))
    return found


def declared_twice(source, line, column):
    """What is said of E402: where the name is declared first."""
    here = cutting.index_at(source.tokens, line, column)
    if here >= len(source.tokens):
        return []
    starts = [one for one in source.unit.functions if one.head[0] == here]
    name = starts[0].name if starts else source.tokens[here].text
    function = source.unit.around(here)
    before = [one for one in (source.unit.declarations(function) if function else []) + source.unit.constants
              if one.name == name and (one.token.line, one.token.column) < (line, column)]
    if name in built_in.KNOWN:
        return [Finding('`%s` is a function that is known without a declaration.' % name)]
    others = [one for one in source.unit.functions if one.name == name and one.head[1] <= here and one not in starts]
    first = (before or others)[:1]
    return [Finding('`%s` is declared at %s already.' % (name, first[0].token.at()))] if first else []


def argument_count(source, line, column):
    """What is said of E404: how many arguments the function takes, and how many are given."""
    tokens = source.tokens
    at = cutting.index_at(tokens, line, column)
    if at + 1 >= len(tokens) or tokens[at + 1].text != '(':
        return []
    name, own = tokens[at].text, source.unit.named(tokens[at].text)
    if own is None and name not in built_in.KNOWN:
        return []
    wanted = len(own.parameters) if own else built_in.ARGUMENTS.get(name, 2)
    given = len(split(tokens, at + 2, cutting.matching(tokens, at + 1)))
    where = ', defined at %s,' % own.token.at() if own else ''
    return [Finding('`%s`%s takes %s, and %d %s given.' % (name, where, counted(wanted, 'argument'), given,
                                                          'is' if given == 1 else 'are'))]
