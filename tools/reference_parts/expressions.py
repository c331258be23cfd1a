"""Reads expressions. `depth` is that of the node above."""
from .tokens import value_and_type
from .tree import ASSIGNMENT_MARKS, LEVELS, TYPE_WORDS, Node

TARGETS = ('unary', 'postfix', 'number', 'truth', 'variable', 'call', 'paren')
PREFIX_MARKS = ('+', '-', '~', '!', '&', '*')


class Expressions:
    """The part of the parser that reads expressions."""

    def comma(self, depth):
        """expr of the grammar."""
        left = self.assignment(depth)
        while self.word() == ',':
            self.take()
            self.must_fit(depth + 1 + left.height)
            right = self.assignment(depth + 1)
            left = self.finished(Node('comma', left.first, [left, right]), depth)
        return left

    def assignment(self, depth):
        """assign of the grammar."""
        left = self.choice(depth)
        if self.word() in ASSIGNMENT_MARKS and left.form in TARGETS:
            mark = self.take()
            self.must_fit(depth + 1 + left.height)
            right = self.assignment(depth + 1)
            left = self.finished(Node('assignment', left.first, [left, right], mark=mark), depth)
        return left

    def choice(self, depth):
        """cond of the grammar."""
        test = self.binary(depth, 1)
        if self.word() != '?':
            return test
        self.take()
        self.must_fit(depth + 1 + test.height)
        yes = self.comma(depth + 1)
        self.take(':')
        no = self.choice(depth + 1)
        return self.finished(Node('choice', test.first, [test, yes, no]), depth)

    def binary(self, depth, level):
        """The productions from or to term, of those that bind at least so close."""
        left = self.cast(depth)
        while LEVELS.get(self.word(), 0) >= level:
            mark = self.take()
            self.must_fit(depth + 1 + left.height)
            right = self.binary(depth + 1, LEVELS[mark] + 1)
            left = self.finished(Node('binary', left.first, [left, right], mark=mark), depth)
        return left

    def cast(self, depth):
        """cast of the grammar."""
        if self.word() != '(' or self.word(1) not in TYPE_WORDS:
            return self.unary(depth)
        first = self.at
        self.take()
        self.must_fit(depth + 1)
        spelled = self.type_of(depth + 2)
        self.take(')')
        part = self.cast(depth + 1)
        return self.finished(Node('cast', first, [spelled, part], spelled=spelled, part=part), depth)

    def unary(self, depth):
        """unary of the grammar."""
        mark, first = self.word(), self.at
        if mark in ('++', '--') or mark in PREFIX_MARKS:
            self.take()
            self.must_fit(depth + 1)
            part = self.cast(depth + 1) if mark in PREFIX_MARKS else self.unary(depth + 1)
            return self.finished(Node('unary', first, [part], mark=mark, part=part), depth)
        if mark == 'sizeof':
            self.take()
            self.take('(')
            self.must_fit(depth + 1)
            if self.word() not in TYPE_WORDS:
                self.syntax()
            spelled = self.type_of(depth + 2)
            self.take(')')
            return self.finished(Node('unary', first, [spelled], mark='sizeof', spelled=spelled), depth)
        return self.postfix(depth)

    def postfix(self, depth):
        """postfix of the grammar."""
        left = self.primary(depth)
        while True:
            mark, first = self.word(), left.first
            if mark == '[':
                self.take()
                self.must_fit(depth + 1 + left.height)
                index = self.comma(depth + 1)
                self.take(']')
                left = Node('postfix', first, [left, index], mark='[]', base=left, index=index)
            elif mark in ('++', '--'):
                self.take()
                left = Node('postfix', first, [left], mark=mark, part=left)
            elif mark == '.':
                self.take()
                self.must_fit(depth + 1 + left.height)
                selection = self.tokens[self.name()].word
                left = Node('postfix', first, [left], mark='.', part=left, selection=selection)
            else:
                return left
            self.finished(left, depth)

    def primary(self, depth):
        """primary of the grammar."""
        first = self.at
        if self.at >= self.count:
            self.syntax()
        token = self.tokens[first]
        if token.kind == 'Number':
            self.take()
            value, name = value_and_type(token.word)
            return self.finished(Node('number', first, [], value=value, literal_type=name), depth)
        if token.word in ('true', 'false'):
            self.take()
            value = 1 if token.word == 'true' else 0
            return self.finished(Node('truth', first, [], value=value, literal_type='int'), depth)
        if token.word == '(':
            self.take()
            self.must_fit(depth + 1)
            part = self.comma(depth + 1)
            self.take(')')
            return self.finished(Node('paren', first, [part], part=part), depth)
        if not self.is_name():
            self.syntax()
        self.name()
        if self.word() == '(':
            return self.call(token.word, first, depth)
        return self.finished(Node('variable', first, [], text=token.word), depth)

    def call(self, text, first, depth):
        """call of the grammar, behind its name."""
        self.take()
        self.must_fit(depth + 1)
        arguments = []
        if self.word() != ')':
            arguments.append(self.assignment(depth + 1))
            while self.word() == ',':
                self.take()
                arguments.append(self.assignment(depth + 1))
        self.take(')')
        return self.finished(Node('call', first, arguments, text=text, arguments=arguments), depth)
