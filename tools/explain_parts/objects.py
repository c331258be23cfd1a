"""The object of an access: the buffer, the local memory or the array that its pointer comes from, by the text alone."""
import re

from explain_parts import tokens as cutting
from explain_parts.unit import ASSIGNING, bytes_of, split

CONSTANT = re.compile(r'[0-9+\-*/%()<> ]+\Z')


class Object:
    """An object in words, its bytes, and the type of the elements by which it is accessed; what is unknown is None."""

    def __init__(self, words, size, element, is_start):
        self.words, self.size, self.element = words, size, element
        # Whether the pointer leads to the first element of the object.
        self.is_start = is_start

    def count(self):
        """How many elements it has, or None."""
        width = bytes_of(self.element)
        return self.size // width if self.size is not None and width else None

    def said(self):
        """The object with its length in words."""
        if self.size is None:
            return self.words
        count = self.count()
        if not count:
            return '%s of %d bytes, which has no element of %s' % (self.words, self.size, self.element)
        numbers = 'number 0' if count == 1 else 'numbers 0 to %d' % (count - 1)
        return '%s of %d bytes: %d element%s of %s, %s' % (self.words, self.size, count, '' if count == 1 else 's',
                                                          self.element, numbers)


def constant(tokens):
    """The value of a constant expression of whole numbers without names, or None where it is another."""
    words = []
    for token in tokens:
        text = token.text.rstrip('uUlL') if token.kind == 'number' else token.text
        try:
            words.append(str(int(text, 8 if re.match(r'0[0-7]+\Z', text) else 0)) if token.kind == 'number' else
                         '//' if text == '/' else text)
        except ValueError:
            return None
    text = ' '.join(words)
    if not CONSTANT.match(text) or len(text) > 200 or '**' in text:
        return None
    try:
        value = eval(text, {'__builtins__': {}})  # pylint: disable=eval-used -- digits and operators alone
    except (SyntaxError, ArithmeticError, TypeError, ValueError, MemoryError):
        return None
    return value if isinstance(value, int) and 0 < value < 1 << 31 else None


def is_moved(source, function, name):
    """Whether a variable of this name is set again anywhere in the function."""
    tokens = source.tokens
    for index in range(function.body + 1, min(function.end, len(tokens) - 1)):
        if tokens[index].text == name and (tokens[index + 1].text in ASSIGNING | {'++', '--'}
                                           or tokens[index - 1].text in ('++', '--')):
            if not is_declared_here(source, function, tokens[index]):
                return True
    return False


def is_declared_here(source, function, token):
    """Whether a token is the name in a declarator."""
    return any(one.token is token for one in source.unit.declarations(function))


def array(one):
    """The array that a declaration makes."""
    size = bytes_of(one.type)
    for length in one.lengths:
        value = constant(length) if length else None
        if not length and len(one.lengths) == 1 and one.value[:1] and one.value[0].text == '{':
            value = len(split(one.value, 1, len(one.value) - 1))
        size = size * value if size and value else None
    space = 'constant' if one.space == 'constant' else 'local' if one.space == 'local' else 'private'
    what = 'array' if one.lengths else 'variable'
    return Object('the %s %s `%s` (%s)' % (space, what, one.name, one.token.at()), size, one.type, True)


def of_parameter(one, number, fit):
    """What a launch binds to a parameter of the kernel."""
    argument = fit.arguments[number] if number < len(fit.arguments) else {}
    if 'local' in argument:
        return Object('the local memory of arg %d' % (number + 1), argument['local'], one.type, True)
    found = fit.buffer(argument.get('buffer'))
    if found is None:
        return None
    line = fit.launch.places.line('buffer', found[0])
    return Object('the buffer "%s" (arg %d, %s:%s)' % (found[1]['name'], number + 1, fit.launch.name, line),
                  found[1].get('bytes'), one.type, True)


def object_of(source, fit, at, name, depth=0):
    """The object that a pointer or an array of this name leads to at a token, or None."""
    found = source.unit.seen(at, name)
    function = source.unit.around(at)
    if not found or function is None or depth > 8:
        return None
    one = found[-1]
    if one.lengths or not one.has_star:
        return array(one)
    if not one.is_parameter:
        start = [index for index in range(len(source.tokens)) if source.tokens[index] is one.token][0]
        return through(source, fit, start, one.value, one, depth)
    number = function.parameters.index(one)
    if function is fit.kernel:
        result = of_parameter(one, number, fit)
    else:
        result = of_calls(source, fit, function, number, depth)
    if result:
        result.element = one.type
        result.is_start = result.is_start and not is_moved(source, function, one.name)
    return result


def through(source, fit, at, value, one, depth):
    """The object of a pointer variable, which comes from the first pointer or array of its initialiser."""
    function = source.unit.around(at)
    pointers = [token for token in value if token.kind == 'name' and any(
        other.lengths or other.has_star for other in source.unit.seen(at, token.text))]
    if not pointers:
        return None
    result = object_of(source, fit, at, pointers[0].text, depth + 1)
    if result:
        result.element = one.type
        result.is_start = result.is_start and len(value) == 1 and not is_moved(source, function, one.name)
    return result


def of_calls(source, fit, function, number, depth):
    """The object that all calls of a function pass for one of its parameters, where it is one and the same."""
    found = []
    for caller in source.unit.reached(fit.kernel):
        for index in source.unit.calls(caller.body, caller.end):
            if source.tokens[index].text != function.name or source.unit.named(function.name) is not function:
                continue
            parts = split(source.tokens, index + 2, cutting.matching(source.tokens, index + 1))
            if number >= len(parts):
                return None
            passed = source.tokens[slice(*parts[number])]
            names = [token for token in passed if token.kind == 'name' and any(
                other.lengths or other.has_star for other in source.unit.seen(index, token.text))]
            one = object_of(source, fit, index, names[0].text, depth + 1) if names else None
            if one is None:
                return None
            one.is_start = one.is_start and len(passed) == 1
            found.append(one)
    if not found or len({one.words for one in found}) > 1:
        return None
    found[0].is_start = all(one.is_start for one in found)
    return found[0]
