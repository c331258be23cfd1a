"""What is said of E501 to E503: the function that stands in the statement, and its row of docs/PORTING.md."""
from explain_parts import built_in, page, tokens as cutting
from explain_parts.findings import Finding
from explain_parts.unit import VECTORS


def statement_of(tokens, at):
    """The indices of the first and of the last token of the statement or declaration around a token."""
    begin = at
    while begin > 0 and tokens[begin - 1].text not in (';', '{', '}'):
        begin -= 1
    end = at
    while end < len(tokens) and tokens[end].text not in (';', '{', '}'):
        end += 1
    return begin, end


def called(source, line, column):
    """The functions in the statement at a place: those around the place or in it, as findings."""
    tokens = source.tokens
    at = cutting.index_at(tokens, line, column)
    if at >= len(tokens):
        return []
    begin, end = statement_of(tokens, at)
    found = []
    for index in source.unit.calls(begin, end):
        name = tokens[index].text
        own = source.unit.named(name)
        if own is None and built_in.is_other(name):
            found.append(Finding('At %s: %s' % (tokens[index].at(), built_in.said_of(name))))
        elif own is not None and not own.is_kernel and holds(tokens, index, at):
            found.append(Finding('`%s`, defined at %s, takes no vector: write its parameter as a pointer. %s' % (
                name, own.token.at(), page.row_of('vector_parameter') or '')))
        elif own is None and name in built_in.NUMBERS:
            found.append(Finding('`%s` at %s takes vectors of one type each, and no number beside a vector.'
                                 % (name, tokens[index].at())))
    return found


def holds(tokens, index, at):
    """Whether a token stands in the arguments of the call whose name is at this index."""
    return index < at < cutting.matching(tokens, index + 1)


def misplaced(source, line, column):
    """What is said of E501."""
    found = called(source, line, column)
    tokens = source.tokens
    at = cutting.index_at(tokens, line, column)
    if found or at >= len(tokens):
        return found
    function = source.unit.around(at)
    if function and function.body is not None and at < function.body:
        case = 'vector_argument' if function.is_kernel else 'vector_parameter'
        what = 'kernel' if function.is_kernel else 'function'
        return [Finding('A vector as a parameter or a result of the %s `%s`. %s'
                        % (what, function.name, page.row_of(case) or ''))]
    begin, end = statement_of(tokens, at)
    words = [token.text for token in tokens[begin:end]]
    if '?' in words:
        return [Finding('A vector beside `?:`. %s' % (page.row_of('vector_choice') or ''))]
    if at + 1 < len(tokens) and at > 0 and tokens[at - 1].text == '(' and tokens[at].text in VECTORS and \
            tokens[at + 1].text == ')':
        return [Finding('A cast to `%s`. %s' % (tokens[at].text, page.row_of('vector_of_a_cast') or ''))]
    if words and words[0] in ('if', 'while', 'for', 'do', 'switch'):
        return [Finding('A vector in the head of `%s`, which takes a number. %s'
                        % (words[0], page.row_of('vector_condition') or ''))]
    return list_in_braces(tokens, at) or vector_at(source, at)


def list_in_braces(tokens, at):
    """A list in braces where a vector has its components in parentheses."""
    if tokens[at].text != '{':
        return []
    types = [token.text for token in tokens[max(at - 4, 0):at] if token.text in VECTORS]
    name = types[-1] if types else 'int4'
    return [Finding('A list in braces makes no vector: write `(%s)(..)`.' % name)]


def vector_at(source, at):
    """The vector of a variable or of an element that begins at a token."""
    found = source.unit.seen(at, source.tokens[at].text)
    if not found or found[-1].type not in VECTORS:
        return []
    one = found[-1]
    what = 'is a vector' if not one.has_star and not one.lengths else 'has vectors'
    return [Finding('`%s` %s of type `%s`; its components, as `.x` or `.s0`, are numbers.'
                    % (one.name, what, one.type))]


def types_differ(source, line, column):
    """What is said of E503."""
    found = called(source, line, column)
    tokens = source.tokens
    at = cutting.index_at(tokens, line, column)
    if found or at >= len(tokens):
        return found
    begin, end = statement_of(tokens, at)
    types = {one.name: one.type for one in source.unit.seen(at) if one.type in VECTORS}
    named = sorted({'`%s` is %s' % (token.text, types[token.text]) for token in tokens[begin:end]
                    if token.text in types})
    found = [Finding('In this statement %s.' % ', '.join(named))] if named else []
    declared = [one for one in source.unit.seen(len(tokens) - 1) if one.token is tokens[at]]
    for one in declared or [other for function in [source.unit.around(at)] if function
                            for other in source.unit.declarations(function) if other.token is tokens[at]]:
        if one.type in VECTORS and len(one.value) == 1 and one.value[0].kind == 'number':
            number = one.value[0].text
            found = [Finding('`%s` is a vector, and %s a number: write `(%s)(%s)`.'
                             % (one.name, number, one.type, number))]
    return found


def no_component(source, line, column):
    """What is said of E502: what stands before the point."""
    tokens = source.tokens
    at = cutting.index_at(tokens, line, column)
    end = next((index for index in range(at, len(tokens)) if tokens[index].text == '.'), len(tokens))
    if end + 1 >= len(tokens) or tokens[at].kind != 'name':
        return []
    found = source.unit.seen(at, tokens[at].text)
    if not found:
        return []
    one = found[-1]
    text = '`%s` is %s' % (one.name, 'a vector of type `%s`' % one.type if one.type in VECTORS else 'no vector')
    if one.type and one.type[-1] == '3':
        return [Finding('`%s` is of type `%s`: vectors have 2, 4, 8 or 16 components. %s'
                        % (one.name, one.type, page.row_of('vector_of_three') or ''))]
    if one.type in VECTORS:
        return [Finding('%s, and `.%s` selects no components that it has.' % (text, tokens[end + 1].text))]
    return [Finding('%s, so `.%s` selects nothing. %s' % (text, tokens[end + 1].text,
                                                         page.row_of('struct_in_a_buffer') or ''))]
