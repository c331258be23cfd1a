"""Reads the tokens that are left after macros as a unit."""
from .expressions import Expressions
from .refusals import SourceRefused
from .tokens import place_of
from .tree import HEAD_WORDS, NO_NAMES, OUTSIDE_WORDS, SPACE_WORDS, TYPE_WORDS, VECTOR_WORDS, Node

MOST_NESTING = 256
ATTRIBUTES = ('reqd_work_group_size', 'work_group_size_hint')


class Parser(Expressions):
    """The state of the parser: the tokens and how many of them are read."""

    def __init__(self, source, tokens):
        self.source, self.tokens, self.at = source, tokens, 0
        self.count = len(tokens)

    def fail(self, number, at):
        """Refuses the source at a token."""
        start = self.tokens[at].start if at < self.count else len(self.source)
        raise SourceRefused(number, *place_of(self.source, start))

    def syntax(self):
        """Refuses the next token."""
        self.fail(301, self.at)

    def word(self, further=0):
        """The word of the next token, or of one further on; empty behind the last."""
        at = self.at + further
        return self.tokens[at].word if at < self.count else ''

    def is_name(self):
        """Whether the next token is a name that the grammar leaves free."""
        return self.at < self.count and self.tokens[self.at].kind == 'Name' and self.word() not in NO_NAMES

    def take(self, word=None):
        """Reads a token, and gives its word."""
        if self.at >= self.count or (word is not None and self.tokens[self.at].word != word):
            self.syntax()
        self.at += 1
        return self.tokens[self.at - 1].word

    def name(self):
        """Reads a name, and gives the number of its token."""
        if not self.is_name():
            self.syntax()
        self.at += 1
        return self.at - 1

    def must_fit(self, depth):
        """Refuses the last token where a node stands deeper than a unit may nest."""
        if depth > MOST_NESTING:
            self.fail(302, max(self.at - 1, 0))

    def finished(self, node, depth):
        """The node, whose last token was read. Its parent stands at this depth."""
        node.last = max(self.at - 1, node.first)
        node.height = 1 + max((part.height for part in node.parts), default=0)
        self.must_fit(depth + node.height)
        return node

    def unit(self):
        """The whole source."""
        items = []
        while self.at < self.count:
            items.append(self.item())
        top = Node('unit', 0, items)
        top.height = 1 + max((part.height for part in items), default=0)
        top.last = max(self.count - 1, 0)
        return top

    def item(self):
        """A function, a prototype or a declaration at the outer level."""
        start, depth, heads = self.at, 1, []
        while self.word() in HEAD_WORDS or self.word() == '__attribute__':
            heads.append(self.head(depth + 1))
        if self.word() == 'void':
            self.take()
            result = self.finished(Node('result', self.at - 1, [], spelled=None), depth + 1)
            return self.function(start, heads, result, self.name(), depth)
        if self.word() not in TYPE_WORDS:
            self.syntax()
        first = self.at
        spelled = self.type_of(depth + 1)
        if not heads and self.word() == '*':
            return self.declaration(start, spelled, depth)
        if not self.is_name():
            self.syntax()
        if self.word(1) == '(':
            name = self.name()
            result = self.finished(Node('result', first, [spelled], spelled=spelled), depth + 1)
            result.last = spelled.last
            return self.function(start, heads, result, name, depth)
        if heads:
            self.name()
            self.syntax()
        return self.declaration(start, spelled, depth)

    def head(self, depth):
        """A word or an attribute in front of a function."""
        first = self.at
        if self.word() != '__attribute__':
            return self.finished(Node('head', first, [], word=self.take()), depth - 1)
        for word in ('__attribute__', '(', '('):
            self.take(word)
        which = self.word()
        if which not in ATTRIBUTES:
            self.syntax()
        self.take()
        self.take('(')
        sizes = [self.choice(depth + 1)]
        for _ in range(2):
            self.take(',')
            sizes.append(self.choice(depth + 1))
        for _ in range(3):
            self.take(')')
        attribute = self.finished(Node('attribute', first, sizes, which=which), depth)
        return self.finished(Node('head', first, [attribute], word='__attribute__', attribute=attribute), depth - 1)

    def function(self, start, heads, result, name, depth):
        """A function or a prototype, behind its name."""
        self.take('(')
        parameters = Node('params', self.at, [])
        if self.word() == 'void':
            self.take()
        elif self.word() != ')':
            parameters.parts.append(self.parameter(depth + 2))
            while self.word() == ',':
                self.take()
                parameters.parts.append(self.parameter(depth + 2))
        parameters = self.finished(parameters, depth + 1)
        self.take(')')
        fields = dict(heads=heads, result=result, name=name, text=self.tokens[name].word, parameters=parameters,
                      is_kernel=any(head.word in ('__kernel', 'kernel') for head in heads))
        if self.word() == ';':
            self.take()
            return self.finished(Node('prototype', start, heads + [result, parameters], **fields), depth)
        if self.word() != '{':
            self.syntax()
        block = self.block(depth + 1)
        return self.finished(Node('function', start, heads + [result, parameters, block], block=block, **fields), depth)

    def parameter(self, depth):
        """One parameter."""
        first = self.at
        if self.word() not in TYPE_WORDS:
            self.syntax()
        spelled = self.type_of(depth + 1)
        parts, star = [spelled], None
        if self.word() == '*':
            star = self.star(depth + 1)
            parts.append(star)
        name = self.name()
        fields = dict(spelled=spelled, star=star, name=name, text=self.tokens[name].word)
        return self.finished(Node('param', first, parts, **fields), depth - 1)

    def qualifiers(self, space, is_const):
        """Reads qualifiers: the space that stands there then, and whether there is a `const`."""
        while True:
            word = self.word()
            if word in SPACE_WORDS:
                if space is not None:
                    self.syntax()
                space = SPACE_WORDS[word]
            elif word == 'const':
                is_const = True
            elif word != 'volatile':
                return space, is_const
            self.take()

    def base(self):
        """Reads a base type. One outside the nine types of numbers has a `!` in front."""
        word = self.word()
        if word in OUTSIDE_WORDS or word in VECTOR_WORDS:
            return '!' + self.take()
        if word in ('bool', 'uchar', 'ushort', 'uint', 'ulong'):
            return self.take()
        if word == 'size_t':
            self.take()
            return 'ulong'
        if word not in ('signed', 'unsigned', 'char', 'short', 'int', 'long'):
            self.syntax()
        is_unsigned = False
        if word in ('signed', 'unsigned'):
            is_unsigned = self.take() == 'unsigned'
            word = self.word()
        found = 'int'
        if word in ('char', 'int', 'short', 'long'):
            found = self.take()
            if found in ('short', 'long') and self.word() == 'int':
                self.take()
        return 'u' + found if is_unsigned else found

    def type_of(self, depth):
        """A type, as a node at this depth."""
        first = self.at
        space, is_const = self.qualifiers(None, False)
        if self.at >= self.count:
            self.syntax()
        is_size = self.word() == 'size_t'
        base = self.base()
        space, is_const = self.qualifiers(space, is_const)
        fields = dict(base=base, space=space, is_const=is_const, is_size=is_size)
        return self.finished(Node('type', first, [], **fields), depth - 1)

    def star(self, depth):
        """The star of a pointer."""
        first, is_const = self.at, False
        self.take('*')
        while self.word() in ('const', 'restrict', '__restrict', 'volatile'):
            is_const = self.take() == 'const' or is_const
        return self.finished(Node('star', first, [], is_const=is_const), depth - 1)

    def declaration(self, start, spelled, depth):
        """A declaration, behind its type. Its parent stands at this depth."""
        declarators = [self.declarator(depth + 2)]
        while self.word() == ',':
            self.take()
            declarators.append(self.declarator(depth + 2))
        self.take(';')
        fields = dict(spelled=spelled, declarators=declarators)
        return self.finished(Node('declare', start, [spelled] + declarators, **fields), depth)

    def declarator(self, depth):
        """One name of a declaration."""
        first, parts, star, lengths, initialiser = self.at, [], None, [], None
        if self.word() == '*':
            star = self.star(depth + 1)
            parts.append(star)
        name = self.name()
        while self.word() == '[':
            self.take()
            length = None
            if self.word() != ']':
                length = self.choice(depth)
                parts.append(length)
            lengths.append(length)
            self.take(']')
        if self.word() == '=':
            self.take()
            initialiser = self.list(depth + 1) if self.word() == '{' else self.assignment(depth)
            parts.append(initialiser)
        fields = dict(star=star, name=name, lengths=lengths, initialiser=initialiser, text=self.tokens[name].word)
        return self.finished(Node('declarator', first, parts, **fields), depth - 1)

    def list(self, depth):
        """An initialiser in braces."""
        first = self.at
        self.take('{')
        parts = [self.assignment(depth)]
        while self.word() == ',':
            self.take()
            if self.word() == '}':
                break
            parts.append(self.assignment(depth))
        self.take('}')
        return self.finished(Node('list', first, parts), depth - 1)

    # Statements. `depth` is that of the statement itself.

    def block(self, depth):
        """Statements in braces."""
        first, parts = self.at, []
        self.take('{')
        self.must_fit(depth)
        while self.word() != '}':
            if self.at >= self.count:
                self.syntax()
            if self.word() in TYPE_WORDS:
                start = self.at
                parts.append(self.declaration(start, self.type_of(depth + 2), depth))
            else:
                parts.append(self.statement(depth + 1))
        self.take('}')
        return self.finished(Node('block', first, parts), depth - 1)

    def statement(self, depth):
        """Any statement."""
        if self.at >= self.count:
            self.syntax()
        word, first = self.word(), self.at
        if word == '{':
            return self.block(depth)
        reads = {'if': self.if_, 'while': self.while_, 'do': self.do, 'for': self.for_, 'switch': self.switch,
                 'case': self.case, 'default': self.default, 'return': self.return_}
        if word in reads:
            self.take()
            return self.finished(reads[word](first, depth), depth - 1)
        if word in ('break', 'continue'):
            self.take()
            self.take(';')
            return self.finished(Node(word, first, []), depth - 1)
        return self.simple(depth)

    def simple(self, depth):
        """An expression as a statement, or nothing."""
        first = self.at
        part = None if self.word() == ';' else self.comma(depth)
        self.take(';')
        return self.finished(Node('simple', first, [part] if part else [], part=part), depth - 1)

    def in_parentheses(self, depth):
        """The test of a statement, in parentheses."""
        self.take('(')
        self.must_fit(depth)
        test = self.comma(depth)
        self.take(')')
        return test

    def if_(self, first, depth):
        """An `if`, behind the word."""
        test = self.in_parentheses(depth)
        yes, no = self.statement(depth + 1), None
        parts = [test, yes]
        if self.word() == 'else':
            self.take()
            no = self.statement(depth + 1)
            parts.append(no)
        return Node('if', first, parts, test=test, yes=yes, no=no)

    def while_(self, first, depth):
        """A `while`, behind the word."""
        test = self.in_parentheses(depth)
        body = self.statement(depth + 1)
        return Node('while', first, [test, body], test=test, body=body)

    def do(self, first, depth):
        """A `do`, behind the word."""
        self.must_fit(depth)
        body = self.statement(depth + 1)
        self.take('while')
        self.take('(')
        test = self.comma(depth)
        self.take(')')
        self.take(';')
        return Node('do', first, [body, test], test=test, body=body)

    def for_(self, first, depth):
        """A `for`, behind the word."""
        self.take('(')
        self.must_fit(depth)
        if self.word() in TYPE_WORDS:
            start = self.at
            before = self.declaration(start, self.type_of(depth + 2), depth)
        else:
            before = self.simple(depth + 1)
        parts, test, further = [before], None, None
        if self.word() != ';':
            test = self.comma(depth)
            parts.append(test)
        self.take(';')
        if self.word() != ')':
            further = self.comma(depth)
            parts.append(further)
        self.take(')')
        body = self.statement(depth + 1)
        parts.append(body)
        return Node('for', first, parts, before=before, test=test, further=further, body=body)

    def switch(self, first, depth):
        """A `switch`, behind the word."""
        value = self.in_parentheses(depth)
        self.take('{')
        body = []
        while self.word() != '}':
            if self.at >= self.count:
                self.syntax()
            body.append(self.statement(depth + 1))
        self.take('}')
        return Node('switch', first, [value] + body, value=value, body=body)

    def case(self, first, depth):
        """A `case`, behind the word."""
        self.must_fit(depth)
        value = self.choice(depth)
        self.take(':')
        body = self.statement(depth + 1)
        return Node('case', first, [value, body], value=value, body=body)

    def default(self, first, depth):
        """A `default`, behind the word."""
        self.take(':')
        self.must_fit(depth)
        body = self.statement(depth + 1)
        return Node('default', first, [body], body=body)

    def return_(self, first, depth):
        """A `return`, behind the word."""
        part = None if self.word() == ';' else self.comma(depth)
        self.take(';')
        return Node('return', first, [part] if part else [], part=part)
