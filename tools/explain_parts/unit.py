"""The functions of a source, their parameters and what they declare, found also in a source that is refused."""
from explain_parts import tokens as cutting

KERNEL = ('__kernel', 'kernel')
SPACES = {'__global': 'global', 'global': 'global', '__local': 'local', 'local': 'local', '__constant': 'constant',
          'constant': 'constant', '__private': 'private', 'private': 'private'}
QUALIFIERS = {'const', 'volatile', 'restrict', '__restrict', *SPACES}
NUMBERS = ['char', 'uchar', 'short', 'ushort', 'int', 'uint', 'long', 'ulong']
BASES = {'bool', 'size_t', 'signed', 'unsigned', *NUMBERS}
VECTORS = {name + str(count) for name in NUMBERS for count in (2, 4, 8, 16)}
OTHERS = set('float double half ptrdiff_t intptr_t uintptr_t event_t sampler_t image1d_t image1d_buffer_t '
             'image1d_array_t image2d_t image2d_array_t image3d_t'.split())
OTHERS |= {name + str(count) for name in ('float', 'double', 'half') for count in (2, 3, 4, 8, 16)}
OTHERS |= {name + '3' for name in NUMBERS}
TYPES = BASES | VECTORS | OTHERS
BYTES = {'bool': 1, 'char': 1, 'uchar': 1, 'short': 2, 'ushort': 2, 'int': 4, 'uint': 4, 'long': 8, 'ulong': 8}
ASSIGNING = {'=', '+=', '-=', '*=', '/=', '%=', '&=', '|=', '^=', '<<=', '>>='}


def type_named(words):
    """The type that these words spell, with one name for each type, or None."""
    words = [word for word in words if word not in QUALIFIERS]
    if len(words) == 1 and words[0] in TYPES - {'signed', 'unsigned'}:
        return {'size_t': 'ulong'}.get(words[0], words[0])
    is_unsigned = 'unsigned' in words
    rest = [word for word in words if word not in ('signed', 'unsigned')]
    base = {(): 'int', ('int',): 'int', ('char',): 'char', ('short',): 'short', ('short', 'int'): 'short',
            ('long',): 'long', ('long', 'int'): 'long'}.get(tuple(rest))
    return base and ('u' + base if is_unsigned else base)


def bytes_of(name):
    """The number of bytes of a type, or None."""
    digits = name.lstrip('abcdefghijklmnopqrstuvwxyz') if name else ''
    if digits and name in VECTORS:
        return BYTES[name[:-len(digits)]] * int(digits)
    return BYTES.get(name)


class Declared:
    """A variable, array or parameter: where its name stands, and from which token to which it is visible."""

    def __init__(self, name, words, has_star):
        self.token, self.name, self.has_star = name, name.text, has_star
        self.type = type_named(words)
        self.space = next((SPACES[word] for word in words if word in SPACES), 'private')
        self.lengths, self.value, self.text = [], [], ''
        self.is_parameter = False
        self.seen_from = self.seen_to = 0


class Function:
    """A function: its name, its parameters, and the indices of the brackets of its body."""

    def __init__(self, name, is_kernel, head):
        self.token, self.name, self.is_kernel = name, name.text, is_kernel
        self.head, self.parameters = head, []
        self.body = self.end = None


def split(tokens, begin, end):
    """The parts between the commas that stand in no bracket, as pairs of indices; none where there is nothing."""
    parts, at, index = [], begin, begin
    while index < end:
        if tokens[index].text in cutting.CLOSING:
            index = cutting.matching(tokens, index)
        elif tokens[index].text == ',':
            parts.append((at, index))
            at = index + 1
        index += 1
    return parts + [(at, min(end, len(tokens)))] if at < end or parts else []


def parameter_of(tokens, begin, end):
    """The parameter that these tokens spell, or None."""
    part = tokens[begin:end]
    names = [token for token in part if token.kind == 'name' and token.text not in QUALIFIERS]
    if len(names) < 2:
        return None
    words = [token.text for token in part if token.kind == 'name' and token is not names[-1]]
    found = Declared(names[-1], words, any(token.text == '*' for token in part))
    found.is_parameter, found.text = True, cutting.spelled(part)
    return found


class Unit:
    """The functions and the variables of the outer level, by the tokens that are left behind macros."""

    def __init__(self, tokens):
        self.tokens, self.functions, self.constants = tokens, [], []
        at = 0
        while at < len(tokens):
            at = self.item(at)

    def item(self, begin):
        """Reads one thing of the outer level; the index behind it."""
        at, is_kernel, tokens = begin, False, self.tokens
        while at < len(tokens):
            text = tokens[at].text
            is_kernel = is_kernel or text in KERNEL
            if text == '__attribute__' and at + 1 < len(tokens) and tokens[at + 1].text == '(':
                at = cutting.matching(tokens, at + 1)
            elif text == '(' and at > begin and tokens[at - 1].kind == 'name':
                return self.function(begin, at, is_kernel)
            elif text in cutting.CLOSING:
                at = cutting.matching(tokens, at)
            elif text == ';':
                break
            at += 1
        self.constants += declared_in(tokens, begin, at, len(tokens))
        return at + 1

    def function(self, begin, at, is_kernel):
        """Reads a function whose list of parameters opens at this index; the index behind it."""
        tokens = self.tokens
        found = Function(tokens[at - 1], is_kernel, (begin, at))
        close = cutting.matching(tokens, at)
        found.parameters = [parameter_of(tokens, *part) for part in split(tokens, at + 1, close)]
        if [parameter for parameter in found.parameters] == [None] and tokens[at + 1].text == 'void':
            found.parameters = []
        self.functions.append(found)
        if close + 1 < len(tokens) and tokens[close + 1].text == '{':
            found.body = close + 1
            found.end = cutting.matching(tokens, close + 1)
            for parameter in found.parameters:
                if parameter:
                    parameter.seen_from, parameter.seen_to = found.body, found.end
            return found.end + 1
        while close < len(tokens) and tokens[close].text != ';':
            close += 1
        return close + 1

    def kernels(self):
        """The kernels that are defined."""
        return [function for function in self.functions if function.is_kernel and function.body is not None]

    def named(self, name):
        """The definition of a function, or its prototype where there is none, or None."""
        found = [function for function in self.functions if function.name == name]
        return next((function for function in found if function.body is not None), found[0] if found else None)

    def around(self, index):
        """The function in whose head or body a token stands, or None."""
        for function in self.functions:
            end = function.end if function.body is not None else function.head[1]
            if function.head[0] <= index <= end:
                return function
        return None

    def calls(self, begin, end):
        """The indices of the names that are called between two indices."""
        return [index for index in range(begin, min(end, len(self.tokens) - 1))
                if self.tokens[index].kind == 'name' and self.tokens[index + 1].text == '(']

    def reached(self, kernel):
        """A kernel and the functions that it calls, directly or through others."""
        found, left = [], [kernel] if kernel else []
        while left:
            one = left.pop(0)
            if one not in found and one.body is not None:
                found.append(one)
                called = [self.named(self.tokens[index].text) for index in self.calls(one.body, one.end)]
                left += [own for own in called if own and not own.is_kernel]
        return found

    def declarations(self, function):
        """The parameters of a function and all that its body declares."""
        body = [] if function.body is None else declarations_of(self.tokens, function.body, function.end)
        return [parameter for parameter in function.parameters if parameter] + body

    def seen(self, index, name=None):
        """What is visible at a token, the innermost last, of this name or of all."""
        function = self.around(index)
        inner = self.declarations(function) if function else []
        found = [one for one in self.constants if one.seen_from <= index]
        found += [one for one in inner if one.seen_from <= index <= one.seen_to]
        return [one for one in found if name is None or one.name == name]


def statement_end(tokens, at, end):
    """The index of the last token of the statement that begins here."""
    if at >= end:
        return end
    text = tokens[at].text
    if text == '{':
        return min(cutting.matching(tokens, at), end)
    if text in ('if', 'while', 'for', 'switch') and at + 1 < end and tokens[at + 1].text == '(':
        last = statement_end(tokens, cutting.matching(tokens, at + 1) + 1, end)
        if text == 'if' and last + 1 < end and tokens[last + 1].text == 'else':
            return statement_end(tokens, last + 2, end)
        return last
    if text == 'do':
        at = statement_end(tokens, at + 1, end) + 1
    while at < end and tokens[at].text not in ';}':
        at = cutting.matching(tokens, at) + 1 if tokens[at].text in cutting.CLOSING else at + 1
    return min(at, end)


def declared_in(tokens, begin, end, seen_to):
    """What the declaration between two indices declares: its words of a type, and then its declarators."""
    at = begin
    while at < end and (tokens[at].text in TYPES or tokens[at].text in QUALIFIERS):
        at += 1
    words = [token.text for token in tokens[begin:at]]
    if not any(word in TYPES for word in words):
        return []
    found = []
    for first, last in split(tokens, at, end):
        names = [index for index in range(first, last) if tokens[index].kind == 'name']
        names = [index for index in names if tokens[index].text not in QUALIFIERS]
        if not names:
            continue
        one = Declared(tokens[names[0]], words, any(token.text == '*' for token in tokens[first:names[0]]))
        index = names[0] + 1
        while index < last and tokens[index].text == '[':
            close = cutting.matching(tokens, index)
            one.lengths.append(tokens[index + 1:close])
            index = close + 1
        one.value = tokens[index + 1:last] if index < last and tokens[index].text == '=' else []
        one.seen_from, one.seen_to = last, seen_to
        found.append(one)
    return found


def declarations_of(tokens, begin, end):
    """What the block between two brackets declares, blocks inside it included."""
    found, blocks = [], []
    for at in range(begin, min(end, len(tokens))):
        text = tokens[at].text
        if text == '{':
            blocks.append(min(cutting.matching(tokens, at), end))
        elif text == '}' and len(blocks) > 1:
            blocks.pop()
        if text not in TYPES and text not in QUALIFIERS or at == begin:
            continue
        before = tokens[at - 1].text
        is_for = before == '(' and tokens[at - 2].text == 'for'
        if is_for or before in ('{', '}', ';', ':'):
            last = at
            while last < end and tokens[last].text not in (';', '}'):
                last = cutting.matching(tokens, last) + 1 if tokens[last].text in cutting.CLOSING else last + 1
            seen_to = statement_end(tokens, at - 2, end) if is_for else blocks[-1] if blocks else end
            found += declared_in(tokens, at, min(last, end), seen_to)
    return found
