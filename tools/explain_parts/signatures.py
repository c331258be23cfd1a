"""What is said of E408, E409 and E411: a type that is not taken, a misplaced variable, and what no kernel has."""
from explain_parts import page, tokens as cutting
from explain_parts.findings import Finding
from explain_parts.unit import NUMBERS, QUALIFIERS, TYPES

SPACE_NEEDED = 'a pointer of a kernel has an address space: `__global`, `__constant` or `__local`'


def type_outside(source, line, column):
    """What is said of E408: the first word from the place on that is a type outside of the subset."""
    at = cutting.index_at(source.tokens, line, column)
    for token in source.tokens[at:at + 6]:
        word = token.text
        if token.kind != 'name' or word in QUALIFIERS:
            continue
        if word.rstrip('0123456789') in ('float', 'double', 'half'):
            return [Finding('`%s`: the subset has whole numbers alone.' % word)]
        if word[-1] == '3' and word[:-1] in NUMBERS:
            return [Finding('`%s`: vectors have 2, 4, 8 or 16 components. %s'
                            % (word, page.row_of('vector_of_three') or ''))]
        if word in ('ptrdiff_t', 'intptr_t', 'uintptr_t'):
            return [Finding('`%s`: write `long` or `ulong`.' % word)]
        if word in TYPES:
            return [Finding('`%s`: the subset has no images, samplers and events.' % word)]
        return []
    return []


def kernel_signature(source, line, column):
    """What is said of E411: what the kernel returns, or the parameter at the place."""
    at = cutting.index_at(source.tokens, line, column)
    function = source.unit.around(at)
    if function is None:
        return []
    for index in range(*function.head):
        if index == at or source.tokens[index].text in TYPES:
            if source.tokens[index].text in TYPES and at < function.head[1]:
                return [Finding('The kernel `%s` returns `%s`: a kernel returns `void`.'
                                % (function.name, source.tokens[index].text))]
    for parameter in function.parameters:
        if parameter is None or (parameter.token.line, parameter.token.column) < (line, column):
            continue
        if parameter.has_star and parameter.space == 'private':
            return [Finding('`%s` points to private memory: %s.' % (parameter.text, SPACE_NEEDED))]
        row = page.row_of('size_t_parameter') if 'size_t' in parameter.text else None
        return [Finding('A kernel has no parameter `%s`. %s' % (parameter.text, row or ''))]
    return []


def misplaced_variable(source, line, column):
    """What is said of E409: in which function and block the variable is declared."""
    at = cutting.index_at(source.tokens, line, column)
    function = source.unit.around(at)
    if function is None or function.body is None:
        return []
    found = [one for one in source.unit.declarations(function)
             if (one.token.line, one.token.column) >= (line, column) and not one.is_parameter]
    if not found:
        return []
    one = found[0]
    if one.space != 'local':
        row = page.row_of('constant_table_in_a_function') if one.space == 'constant' else None
        return [Finding('`%s` is declared in `%s`; no function declares %s memory. %s'
                        % (one.name, function.name, one.space, row or ''))]
    if not function.is_kernel:
        return [Finding('`%s` is declared in `%s`, which is no kernel: declare it in the outermost block of a kernel, and '
                        'pass a pointer to it.' % (one.name, function.name))]
    if one.value:
        return [Finding('`%s` has an initialiser, and local memory has none: it begins as zeros.' % one.name)]
    return [Finding('`%s` is declared in an inner block of kernel `%s`: declare it in the outermost one.'
                    % (one.name, function.name))]
