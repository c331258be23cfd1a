"""What is said of E301: what could stand at the place, what is open there, and the form that the subset lacks."""
from explain_parts import page, tokens as cutting
from explain_parts.expressions import BINARY, WORDS
from explain_parts.findings import Finding, listed, near
from explain_parts.parser import Parser
from explain_parts.unit import NUMBERS, OTHERS, QUALIFIERS, TYPES

STDINT = {sign + 'int%d_t' % bits for sign in ('', 'u') for bits in (8, 16, 32, 64)}
STORAGE = {'register', 'auto', 'extern'}
OUTSIDE = 'docs/LANGUAGE.md, "What is outside the subset", has it.'
# Words that other sources write for a qualifier or a type, and what to write.
OTHER_WORDS = {'__const': '`const`', '__restrict__': '`restrict`', '__volatile__': '`volatile`', '__inline': '`inline`',
               '__inline__': '`inline`', 'uint8': '`uchar`, or the vector type `uint8`'}
# What each word that stands nowhere in the grammar is, with the case of docs/PORTING.md that takes its place.
REFUSED = {
    'typedef': [('`typedef` stands nowhere in the subset', 'typedef')],
    'struct': [('`struct` stands nowhere in the subset', 'struct_in_a_buffer'), (None, 'struct_of_two_types'),
               (None, 'struct_argument')],
    'union': [('`union` stands nowhere in the subset', None)],
    'enum': [('`enum` stands nowhere in the subset', 'enum')],
    'goto': [('`goto` stands nowhere in the subset', 'goto')],
}


class Place:
    """The token that could not be read, and those around it. `at` is its index."""

    def __init__(self, tokens, at):
        self.tokens, self.at = tokens, at

    def text(self, by=0):
        """The text of the token so many further on."""
        index = self.at + by
        return self.tokens[index].text if 0 <= index < len(self.tokens) else ''

    def kind(self, by=0):
        """The kind of the token so many further on."""
        index = self.at + by
        return self.tokens[index].kind if 0 <= index < len(self.tokens) else ''

    def is_name(self, by=0):
        """Whether a name that is no word of the grammar stands there."""
        return self.kind(by) == 'name' and self.text(by) not in WORDS

    def in_cast(self):
        """Whether the tokens in front are `(` and a type."""
        by = -1
        while self.text(by) in TYPES | QUALIFIERS:
            by -= 1
        return by < -1 and self.text(by) == '('


def refused_word(place, _):
    """Words that stand nowhere in the grammar."""
    for by in (0, -1):
        if place.text(by) in REFUSED:
            return REFUSED[place.text(by)]
    if place.text() == ':' and place.is_name(-1):
        return [('A label: `goto` and labels stand nowhere in the subset', 'goto')]
    return None


def type_word(place, _):
    """Names of types that the subset spells otherwise."""
    if place.text(-1) == place.text() == 'long':
        return [('`long long` is no type of OpenCL C', 'long_long')]
    if place.text() in ('signed', 'unsigned', 'char', 'short', 'int', 'long') and place.text(-1) in TYPES:
        return [('The words of a type stand in this order: `unsigned long`', 'order_of_type_words')]
    for by in (0, -1):
        word = place.text(by)
        if word in STDINT:
            like = ('u' if word[0] == 'u' else '') + {'8': 'char', '16': 'short', '32': 'int', '64': 'long'}[
                word.strip('uint_')]
            return [('`%s` is no type of OpenCL C: it is `%s`' % (word, like), 'names_of_stdint')]
        if word in OTHER_WORDS:
            return [('`%s` is no word of OpenCL C: write %s' % (word, OTHER_WORDS[word]), None)]
    return None


def storage(place, parser):
    """Words about storage."""
    for by in (0, -1):
        if place.text(by) in STORAGE:
            return [('`%s` stands nowhere in the subset' % place.text(by), 'register')]
        if place.text(by) == 'static' and place.text(by + 1) == 'const' or place.text(by) == 'const' \
                and place.text(by - 1) == 'static':
            return [('`static` stands in front of functions alone', 'static_const')]
    if place.text() == 'static' and parser.around:
        return [('`static` stands in front of functions alone', None)]
    if any(token.text == 'static' for token in place.tokens[max(place.at - 6, 0):place.at]) and not parser.around \
            and place.text() in ('=', '[', ';'):
        return [('`static` stands in front of functions alone', 'static_const')]
    return None


def attribute(place, parser):
    """Attributes that the subset lacks, or that stand elsewhere."""
    if place.text(-1) == '(' and place.text(-2) == '(' and place.text(-3) == '__attribute__':
        return [('The attribute `%s` stands nowhere in the subset; it has reqd_work_group_size and '
                 'work_group_size_hint' % place.text(), row_about('(%s' % place.text()) or 'other_attributes')]
    if place.text() == '__attribute__' and place.text(-1) == 'void':
        return [('An attribute stands in front of `void`', 'attribute_behind_void')]
    if place.text() == '__attribute__':
        return [('An attribute stands in the head of a function alone', 'other_attributes')]
    return None


def cast(place, _):
    """Casts that the subset lacks."""
    if place.text() == 'void' and place.text(-1) == '(':
        return [('A cast to nothing', 'cast_to_void')]
    if place.text() == '*' and place.in_cast():
        return [('A cast of a pointer', 'pointer_cast')]
    return None


def pointer(place, parser):
    """Pointers that the subset lacks."""
    if place.text() == '*' and place.text(-1) == '*':
        return [('A pointer to a pointer is no type of the subset', None)]
    if place.text() == 'void' and place.text(1) == '*':
        return [('A pointer to nothing, `void *`, is no type of the subset', None)]
    if place.text() == '*' and place.text(-1) == 'void':
        return [('A function gives no pointer, and nothing points to `void`', None)]
    if place.text() == '>' and place.text(-1) == '-':
        return [('`->` selects a part of a structure, of which the subset has none', 'struct_in_a_buffer')]
    if place.text() == '(' and place.is_name(-1) and place.text(-2) == '*' and not parser.around[1:]:
        return [('A function gives no pointer', None)]
    return None


def lists(place, parser):
    """Lists and arrays that the subset spells otherwise."""
    inside = [what for what, _ in parser.around]
    if place.text() == '{' and 'a list' in inside:
        return [('A list in a list', 'lists_in_lists')]
    if place.text() == '[' and inside[-1:] == ['a list']:
        return [('A list does not name the places of its values', None)]
    if place.text() == '[' and inside and inside[-1].startswith('the parameters'):
        name = place.text(-1)
        row = row_about('[8]` as') or row_about('array_parameter')
        return [('An array as a parameter: write a pointer, `*%s`' % name, row)]
    return None


def row_about(word):
    """The case of the first row of docs/PORTING.md in whose left side or case this stands, or None."""
    return next((case for as_written, _, case in page.rows() if word in as_written or word == case), None)


def other_forms(place, parser):
    """Further forms that the subset lacks."""
    inside = [what for what, _ in parser.around]
    if 'sizeof' in (place.text(-1), place.text(-2)):
        return [('`sizeof` takes a type in parentheses alone', 'sizeof_an_expression')]
    if place.text() in (',', ')') and inside and inside[-1].startswith('the parameters') and \
            (place.text(-1) in TYPES or place.text(-1) == '*'):
        return [('A parameter has a name', 'parameter_without_a_name')]
    if place.text() == '.' and place.kind(1) == 'number':
        return [('A number begins with a digit; the subset has whole numbers alone', None)]
    if place.text() == '#' or place.text(-1) == '#':
        return [('`#` begins a directive where it is first on its line, and stands nowhere else', 'joined_names')]
    if (place.text() in TYPES or place.text() in QUALIFIERS) and inside[-1:] == ['the body of a `switch`']:
        return [('No declaration stands at the outer level of a `switch`: give the arm a block of its own', '')]
    if (place.text() in TYPES or place.text() in QUALIFIERS) and inside and inside[-1] in ('`if`', '`for`', '`while`',
                                                                                         '`do`', '`case`'):
        return [('A declaration is no statement: put it in `{` and `}`', '')]
    return None


FORMS = [refused_word, type_word, storage, attribute, cast, pointer, lists, other_forms]


def findings(source, line, column):
    """What is said of E301."""
    tokens = source.tokens
    parser = Parser(tokens)
    if parser.read():
        return []
    at = parser.furthest
    end = (source.text.count('\n') + 1, len(source.text) - source.text.rfind('\n'))
    if ((tokens[at].line, tokens[at].column) if at < len(tokens) else end) != (line, column):
        return []
    place = Place(tokens, at)
    said = []
    for form in FORMS:
        found = form(place, parser)
        if found:
            said = [sentence(text, case) for text, case in found]
            break
    said = said or two_names(place, parser) + begun(place, parser) + still_open(place, parser) + wanted(place, parser)
    if at < len(tokens) and tokens[at].macro:
        said.append('It comes from the macro `%s`.' % tokens[at].macro)
    return [Finding(text) for text in said]


def sentence(text, case):
    """What a form is, with its row of docs/PORTING.md."""
    row = page.row_of(case) if case else None
    if text is None or case == '':
        return row or text + '.'
    return '%s. %s' % (text, row or OUTSIDE)


def two_names(place, parser):
    """Two names behind one another: the first is no type."""
    if not (place.is_name() and place.is_name(-1)) and not (place.is_name() and '`;`' not in parser.expected and
                                                            'a type' in parser.expected):
        return []
    name = place.text() if 'a type' in parser.expected else place.text(-1)
    if is_first_of_line(place) and name == place.text(-1):
        return []
    found = near(name, [one for one in TYPES - OTHERS if one not in NUMBERS] + NUMBERS + ['void', '__kernel', 'return'])
    return ['`%s` is no type of the subset, and no operator stands behind it.%s %s' % (
        name, ' Near it: `%s`.' % '`, `'.join(found) if found else '', page.row_of('typedef') or '')]


def begun(place, parser):
    """A function that begins inside of another."""
    inside = [token for what, token in parser.around if what.startswith('function')]
    if not inside:
        return []
    name = None
    if place.text() in ('__kernel', 'kernel', 'void', 'inline', 'static', '__attribute__'):
        later = [token for token in place.tokens[place.at:] if token.text == '(']
        if later:
            name = place.tokens[place.tokens.index(later[0]) - 1].text
    elif place.text() == '(' and parser.around[-1][0] == 'a declaration':
        name = place.text(-1)
    blocks = ['`{` of %s' % token.at() for what, token in parser.around if token.text == '{']
    return ['The function `%s` begins inside of another: %s %s not closed before it.' % (
        name, listed(blocks), 'is' if len(blocks) == 1 else 'are')] if name and blocks else []


def is_first_of_line(place):
    """Whether the token stands on another line than the one in front of it."""
    if place.at >= len(place.tokens) or place.at == 0:
        return place.at > 0
    return place.tokens[place.at].line > place.tokens[place.at - 1].line


def still_open(place, parser):
    """The brackets that are open where they cannot be."""
    opened = [token for _, token in parser.around if token.text in cutting.CLOSING]
    if place.at >= len(place.tokens):
        return ['At the end of the source %s not closed: %s.' % (
            'a bracket is' if len(opened) == 1 else 'brackets are',
            listed('`%s` of %s' % (token.text, token.at()) for token in opened))] if opened else []
    text = place.text()
    if text not in (')', ']', '}', ';', '{'):
        return []
    if text in (')', ']', '}') and not any(cutting.CLOSING[token.text] == text for token in opened):
        return ['`%s` closes nothing: no `%s` is open.' % (text, {v: k for k, v in cutting.CLOSING.items()}[text])]
    last = opened[-1] if opened else None
    if last and last.text in '([' and cutting.CLOSING[last.text] != text and 'for' not in parser.around[-1][0]:
        return ['`%s` of %s is not closed before `%s`.' % (last.text, last.at(), text)]
    return []


def wanted(place, parser):
    """What could stand at the place, and that the line in front ends without `;`."""
    expected = list(parser.expected)
    drop = {'an expression', '`(`'} if 'a statement' in expected else set()
    if 'an operator' in expected:
        drop |= {'`[`', '`=`', '`*`'} | {'`%s`' % one for one in BINARY}
    expected = [one for one in expected if one not in drop]
    if not expected or len(expected) > 6:
        return []
    order = sorted(expected, key=lambda one: (one.startswith('`'), one))
    last = place.tokens[place.at - 1] if place.at else None
    text = 'Behind `%s` (%s) could stand %s.' % (last.text, last.at(), listed(order, 'or')) if last else \
        'Here could stand %s.' % listed(order, 'or')
    if '`;`' in expected and is_first_of_line(place) and last:
        text = 'Line %d ends without `;`. ' % last.line + text
    return [text]
