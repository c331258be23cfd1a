"""What stands in the place of a value by the grammar of docs/LANGUAGE.md: types, expressions, calls.

The reader answers yes or no of each token that it asks for, and keeps what it asked for at the furthest token."""
from explain_parts.unit import ASSIGNING, QUALIFIERS, SPACES, TYPES

HEADS = {'__kernel', 'kernel', 'inline', 'static', '__attribute__'}
STATEMENTS = {'if', 'while', 'do', 'for', 'switch', 'case', 'default', 'break', 'continue', 'return', 'else'}
REFUSED = {'struct', 'union', 'enum', 'typedef', 'goto'}
WORDS = HEADS | STATEMENTS | REFUSED | TYPES | QUALIFIERS | {'void', 'sizeof', 'true', 'false', 'reqd_work_group_size',
                                                             'work_group_size_hint'}
BINARY = {'||', '&&', '|', '^', '&', '==', '!=', '<', '>', '<=', '>=', '<<', '>>', '+', '-', '*', '/', '%'}
AFTER_SIGN = {'char', 'short', 'int', 'long'}


class Stop(Exception):
    """The tokens end, or go on as nothing does."""


class Reader:
    """Reads tokens. `furthest` is the first token that could not be read, `expected` what could stand there, and
    `around` the constructs that are open there, each with the token that opens it."""

    def __init__(self, tokens):
        self.tokens, self.at = tokens, 0
        self.furthest, self.expected, self.around = -1, [], []
        self.open = []

    def text(self, ahead=0):
        """The text of a token, and nothing behind the last."""
        index = self.at + ahead
        return self.tokens[index].text if index < len(self.tokens) else ''

    def wish(self, what):
        """Keeps that this could stand here."""
        if self.at > self.furthest:
            self.furthest, self.expected, self.around = self.at, [], list(self.open)
        if self.at == self.furthest and what not in self.expected:
            self.expected.append(what)

    def took(self, *texts):
        """Whether one of these tokens stands here; goes on behind it."""
        if self.text() in texts:
            self.at += 1
            return True
        for text in texts:
            self.wish('`%s`' % text)
        return False

    def need(self, text):
        """Goes on behind this token, which has to stand here."""
        if not self.took(text):
            raise Stop

    def name(self):
        """Goes on behind a name."""
        if self.at >= len(self.tokens) or self.tokens[self.at].kind != 'name' or self.text() in WORDS:
            self.wish('a name')
            raise Stop
        self.at += 1

    def inside(self, what, begin, read):
        """Reads something with a note of what it is part of."""
        self.open.append((what, begin))
        read()
        self.open.pop()

    def token(self):
        """The token that is read last."""
        return self.tokens[self.at - 1] if self.at else None

    def is_type(self):
        """Whether a type begins here."""
        return self.text() in TYPES or self.text() in QUALIFIERS and self.text() not in ('restrict', '__restrict')

    def qualifiers(self):
        """The qualifiers in front of a type or behind it."""
        while self.text() in SPACES or self.text() in ('const', 'volatile'):
            if self.text() in SPACES:
                if self.has_space:
                    return
                self.has_space = True
            self.at += 1

    def type(self):
        """A type."""
        self.has_space = False
        self.qualifiers()
        if self.text() not in TYPES:
            self.wish('a type')
            raise Stop
        word = self.text()
        self.at += 1
        if word in ('signed', 'unsigned'):
            word = ''
            if self.text() in AFTER_SIGN:
                word = self.text()
                self.at += 1
        if word in ('short', 'long') and self.text() == 'int':
            self.at += 1
        self.qualifiers()

    def group(self):
        """An expression in parentheses."""
        self.need('(')
        self.inside('`(`', self.token(), self.group_rest)

    def group_rest(self):
        """An expression, and what closes it."""
        self.expression()
        self.need(')')

    def expression(self):
        """Assignments with commas."""
        self.assignment()
        while self.took(','):
            self.assignment()

    def assignment(self):
        """A value that may be assigned to."""
        is_unary = self.conditional()
        if is_unary and self.text() in ASSIGNING:
            self.at += 1
            self.assignment()
        elif is_unary:
            self.wish('an operator')

    def conditional(self):
        """A value without an assignment; whether it is a unary expression."""
        is_unary = self.unary()
        while self.text() in BINARY:
            self.at += 1
            self.unary()
            is_unary = False
        self.wish('an operator')
        if self.text() == '?':
            self.at += 1
            self.expression()
            self.need(':')
            self.conditional()
            return False
        return is_unary

    def unary(self):
        """A value with what stands in front of it; whether it is more than a cast."""
        if self.text() == '(' and self.at + 1 < len(self.tokens):
            self.at += 1
            is_cast = self.is_type()
            self.at -= 1
            if is_cast:
                self.at += 1
                self.inside('`(`', self.token(), self.cast)
                self.unary()
                return False
        if self.text() in ('++', '--'):
            self.at += 1
            if self.text() == '(' and self.text(1) in TYPES | QUALIFIERS:
                self.at += 1
                self.wish('an expression')
                raise Stop
            return self.unary()
        if self.text() in ('+', '-', '~', '!', '&', '*'):
            self.at += 1
            self.unary()
            return True
        if self.text() == 'sizeof':
            self.at += 1
            self.need('(')
            self.inside('`(`', self.token(), self.cast)
            return True
        self.postfix()
        return True

    def cast(self):
        """A type, and what closes it."""
        self.type()
        self.need(')')

    def postfix(self):
        """A value with what stands behind it."""
        self.primary()
        while True:
            if self.text() == '[':
                self.at += 1
                self.inside('`[`', self.token(), self.index)
            elif self.text() in ('++', '--'):
                self.at += 1
            elif self.text() == '.':
                self.at += 1
                self.name()
            else:
                return

    def index(self):
        """An index, and what closes it."""
        self.expression()
        self.need(']')

    def primary(self):
        """A number, a name, a call or an expression in parentheses."""
        token = self.tokens[self.at] if self.at < len(self.tokens) else None
        if token is None or token.kind != 'number' and token.text not in ('true', 'false', '(') and (
                token.kind != 'name' or token.text in WORDS):
            self.wish('an expression')
            raise Stop
        if token.text == '(':
            self.group()
            return
        self.at += 1
        if token.kind == 'name' and token.text not in WORDS and self.text() == '(':
            self.at += 1
            self.inside('the arguments of `%s`' % token.text, self.token(), self.arguments)

    def arguments(self):
        """The arguments of a call, and what closes them."""
        if self.took(')'):
            return
        self.assignment()
        while not self.took(')'):
            self.need(',')
            self.assignment()
