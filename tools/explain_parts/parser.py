"""Where a source stops to be one by the grammar of docs/LANGUAGE.md, and what could stand there.

Where the furthest token that could be read is the place that the program printed, what was asked for there is what
could stand there; where it is another, nothing is said."""
from explain_parts.expressions import HEADS, Reader, Stop


class Parser(Reader):
    """Reads a unit, its functions and their statements."""

    def read(self):
        """Whether the tokens are a unit."""
        try:
            while self.at < len(self.tokens):
                self.item()
            return True
        except Stop:
            return False

    def item(self):
        """A function, a prototype or a declaration."""
        begin, has_head = self.at, False
        while self.text() in HEADS:
            has_head = True
            if self.text() == '__attribute__':
                self.attribute()
            else:
                self.at += 1
        if self.text() == 'void':
            self.at += 1
        elif not self.is_type():
            self.wish('a function' if not has_head else 'the type of a function')
            if not has_head:
                self.wish('a declaration')
            raise Stop
        else:
            self.type()
        if self.text(1) == '(' or has_head or self.tokens[self.at - 1].text == 'void':
            self.function()
        else:
            self.declarators(begin)

    def attribute(self):
        """An attribute of a kernel."""
        self.at += 1
        self.need('(')
        self.need('(')
        if not self.took('reqd_work_group_size', 'work_group_size_hint'):
            raise Stop
        self.need('(')
        for close in (',', ',', ')'):
            self.conditional()
            self.need(close)
        self.need(')')
        self.need(')')

    def function(self):
        """A function behind its type."""
        self.name()
        name = self.token()
        self.need('(')
        self.inside('the parameters of `%s`' % name.text, self.token(), self.parameters)
        if self.text() == ';':
            self.at += 1
            return
        if self.text() != '{':
            self.wish('`;`')
        self.need('{')
        self.inside('function `%s`' % name.text, self.token(), self.block_rest)

    def parameters(self):
        """The parameters of a function, and what closes them."""
        if self.text() == 'void':
            self.at += 1
            self.need(')')
            return
        if self.took(')'):
            return
        while True:
            self.type()
            self.star()
            self.name()
            if self.took(')'):
                return
            self.need(',')

    def star(self):
        """A star, if one is there."""
        if self.took('*'):
            while self.text() in ('const', 'restrict', '__restrict', 'volatile'):
                self.at += 1

    def declarators(self, begin):
        """The declarators behind the type of a declaration, which begins at this index."""
        def read():
            while True:
                self.star()
                self.name()
                while self.took('['):
                    if not self.took(']'):
                        self.inside('`[`', self.token(), self.length)
                if self.took('='):
                    self.initialiser()
                if self.took(';'):
                    return
                self.need(',')
        self.inside('a declaration', self.tokens[begin], read)

    def length(self):
        """The length of an array, and what closes it."""
        self.conditional()
        self.need(']')

    def initialiser(self):
        """A value or a list of values."""
        if self.text() != '{':
            self.wish('`{`')
            self.assignment()
            return
        self.at += 1
        self.inside('a list', self.token(), self.list_rest)

    def list_rest(self):
        """The values of a list, and what closes it."""
        self.assignment()
        while not self.took('}'):
            self.need(',')
            if self.took('}'):
                return
            self.assignment()

    def block_rest(self):
        """The statements and declarations of a block, and what closes it."""
        while self.text() != '}':
            if self.is_type():
                begin = self.at
                self.type()
                self.declarators(begin)
            else:
                self.wish('`}`')
                self.wish('a declaration')
                self.statement()
        self.at += 1

    def statement(self):
        """A statement."""
        text, begin = self.text(), self.at
        read = {'if': self.if_, 'while': self.while_, 'do': self.do, 'for': self.for_, 'switch': self.switch,
                'case': self.case, 'return': self.return_}.get(text)
        if read:
            self.at += 1
            self.inside('`%s`' % text, self.tokens[begin], read)
        elif text == '{':
            self.at += 1
            self.inside('a block', self.tokens[begin], self.block_rest)
        elif text in ('break', 'continue', 'default'):
            self.at += 1
            self.need(':' if text == 'default' else ';')
            if text == 'default':
                self.statement()
        elif text == ';':
            self.at += 1
        else:
            self.wish('a statement')
            self.expression()
            self.need(';')

    def if_(self):
        """What follows `if`."""
        self.group()
        self.statement()
        if self.took('else'):
            self.statement()

    def while_(self):
        """What follows `while`."""
        self.group()
        self.statement()

    def do(self):
        """What follows `do`."""
        self.statement()
        self.need('while')
        self.group()
        self.need(';')

    def for_(self):
        """What follows `for`."""
        self.need('(')
        self.inside('the `(` of a `for`', self.token(), self.for_rest)
        self.statement()

    def for_rest(self):
        """The three parts of a `for`, and what closes them."""
        if self.is_type():
            begin = self.at
            self.type()
            self.declarators(begin)
        elif not self.took(';'):
            self.expression()
            self.need(';')
        for close in (';', ')'):
            if not self.took(close):
                self.expression()
                self.need(close)

    def switch(self):
        """What follows `switch`."""
        self.group()
        self.need('{')
        self.inside('the body of a `switch`', self.token(), self.switch_rest)

    def switch_rest(self):
        """The statements of a `switch`, and what closes them."""
        while not self.took('}'):
            self.statement()

    def case(self):
        """What follows `case`."""
        self.conditional()
        self.need(':')
        self.statement()

    def return_(self):
        """What follows `return`."""
        if not self.took(';'):
            self.expression()
            self.need(';')
