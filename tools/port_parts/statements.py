"""Statements are read from tokens."""
from .notes import Refused
from .tree import Node, Scope


class Statements:
    """The part of the reader that reads statements."""

    def block(self):
        """A block with a scope of its own."""
        self.scope = Scope(self.scope)
        start = self.expect('{')
        items = []
        while not self.is_next('}'):
            items += self.item()
        end = self.take()
        self.scope = self.scope.above
        return Node('block', start, items=items, end=end)

    def item(self):
        """The statements that one declaration or statement of a block is."""
        if self.is_label():
            return [self.statement()]
        if self.starts_type(0):
            found = self.declaration()
            return [found] if found is not None else []
        return [self.statement()]

    def is_label(self):
        """Whether a label comes."""
        return self.peek().kind == 'name' and self.peek(1).text == ':' and self.peek().text not in ('default', 'case')

    def statement(self):
        """One statement."""
        token = self.peek()
        if token.text == '{' and token.kind == 'mark':
            return self.block()
        if token.text == ';' and token.kind == 'mark':
            return Node('empty', self.take())
        if token.kind == 'name':
            if self.is_label():
                name = self.take()
                self.take()
                body = self.statement() if not self.is_next('}') else Node('empty', name)
                return Node('label', name, name=name.text, body=body)
            reader = getattr(self, 'read_' + token.text, None)
            if reader is not None and token.text in WORDS:
                return reader(self.take())
            if token.text == '__attribute__':
                self.attributes()
                return self.statement()
        value = self.expression()
        return Node('expression', token, value=value, end=self.expect(';'))

    def in_parentheses(self):
        """An expression in parentheses."""
        self.expect('(')
        found = self.expression()
        self.expect(')')
        return found

    def read_if(self, token):
        """`if`."""
        test = self.in_parentheses()
        then = self.inner()
        otherwise, word = None, None
        if self.peek().text == 'else':
            word = self.take()
            otherwise = self.inner()
        return Node('if', token, test=test, then=then, word=word, otherwise=otherwise)

    def inner(self):
        """A statement that is a part of another, with a scope of its own."""
        self.scope = Scope(self.scope)
        found = self.statement()
        self.scope = self.scope.above
        return found

    def read_while(self, token):
        """`while`."""
        test = self.in_parentheses()
        return Node('while', token, test=test, body=self.inner())

    def read_do(self, token):
        """`do`."""
        body = self.inner()
        word = self.take()
        if word.text != 'while':
            raise Refused(word, 'syntax: `while` is expected')
        test = self.in_parentheses()
        return Node('do', token, body=body, word=word, test=test, end=self.expect(';'))

    def read_for(self, token):
        """`for`, with a scope around it."""
        self.scope = Scope(self.scope)
        self.expect('(')
        if self.is_next(';'):
            first = Node('empty', self.take())
        elif self.starts_type(0):
            first = self.declaration()
        else:
            value = self.expression()
            first = Node('expression', value.token, value=value, end=self.expect(';'))
        test = None if self.is_next(';') else self.expression()
        self.expect(';')
        step = None if self.is_next(')') else self.expression()
        self.expect(')')
        body = self.inner()
        self.scope = self.scope.above
        return Node('for', token, first=first, test=test, step=step, body=body)

    def read_switch(self, token):
        """`switch`."""
        test = self.in_parentheses()
        if not self.is_next('{'):
            raise Refused(token, 'a switch without a block')
        return Node('switch', token, test=test, body=self.block())

    def read_case(self, token):
        """`case`."""
        value = self.conditional()
        self.expect(':')
        body = Node('empty', token) if self.is_next('}') else self.labelled()
        return Node('case', token, value=value, body=body)

    def read_default(self, token):
        """`default`."""
        self.expect(':')
        return Node('default', token, body=Node('empty', token) if self.is_next('}') else self.labelled())

    def labelled(self):
        """The statement behind a label; a declaration there is one of C23."""
        if self.starts_type(0) and not self.is_label():
            raise Refused(self.peek(), 'a declaration directly behind a label')
        return self.statement()

    def read_break(self, token):
        """`break`."""
        return Node('break', token, end=self.expect(';'))

    def read_continue(self, token):
        """`continue`."""
        return Node('continue', token, end=self.expect(';'))

    def read_return(self, token):
        """`return`."""
        value = None if self.is_next(';') else self.expression()
        return Node('return', token, value=value, end=self.expect(';'))

    def read_goto(self, token):
        """`goto`."""
        name = self.take()
        return Node('goto', token, name=name.text, end=self.expect(';'))


WORDS = ('if', 'while', 'do', 'for', 'switch', 'case', 'default', 'break', 'continue', 'return', 'goto')
