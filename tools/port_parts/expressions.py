"""Expressions are read from tokens, each with its type."""
from . import built_in, constants, types, typing
from .notes import Refused
from .starts import completed
from .tokens import characters, in_source
from .tree import Node, Symbol, stripped
from .types import Array, Pointer, Scalar, Vector

LEVELS = [('||',), ('&&',), ('|',), ('^',), ('&',), ('==', '!='), ('<', '>', '<=', '>='), ('<<', '>>'), ('+', '-'),
          ('*', '/', '%')]
ASSIGNMENTS = ('=', '+=', '-=', '*=', '/=', '%=', '&=', '|=', '^=', '<<=', '>>=')
CONSTANT_NAMES = ('CLK_LOCAL_MEM_FENCE', 'CLK_GLOBAL_MEM_FENCE', 'CLK_IMAGE_MEM_FENCE')


class Expressions:
    """The part of the reader that reads expressions. `self.at` is the number of the next token."""

    def expression(self):
        """An expression, with the operator `,`."""
        left = self.assignment()
        while self.is_next(','):
            op = self.take()
            right = self.assignment()
            left = self.made('comma', left.token, right.type, left=left, op=op, right=right)
        return left

    def made(self, kind, token, type_, **parts):
        """A node with its type."""
        node = Node(kind, token, **parts)
        node.type = type_
        return node

    def assignment(self):
        """An expression without the operator `,`."""
        left = self.conditional()
        if self.peek().text not in ASSIGNMENTS or self.peek().kind != 'mark':
            return left
        op = self.take()
        right = self.assignment()
        node = self.made('assign', left.token, left.type, left=left, op=op, right=right)
        self.touched(left, right if op.text == '=' else None)
        return node

    def touched(self, target, source=None):
        """Notes that a variable is assigned, and from what where it is a pointer."""
        target = stripped(target)
        if target.kind == 'name' and target.symbol is not None:
            target.symbol.is_assigned = True
            if isinstance(target.symbol.type, Pointer) and source is not None:
                target.symbol.sources.append(source)

    def conditional(self):
        """An expression with `?:`."""
        test = self.level(0)
        if not self.is_next('?'):
            return test
        mark = self.take()
        yes = self.expression()
        colon = self.expect(':')
        no = self.conditional()
        node = Node('choose', test.token, test=test, mark=mark, yes=yes, colon=colon, no=no)
        node.type = typing.choose_type(node)
        return node

    def level(self, number):
        """An expression of operators of one level and those that bind stronger."""
        if number == len(LEVELS):
            return self.cast()
        left = self.level(number + 1)
        while self.peek().kind == 'mark' and self.peek().text in LEVELS[number]:
            op = self.take()
            node = Node('binary', left.token, left=left, op=op, right=self.level(number + 1))
            node.type = typing.binary_type(node)
            self.compared(node)
            left = node
        return left

    def compared(self, node):
        """Notes the pointers that are compared or subtracted."""
        kinds = [typing.pointed(side) for side in (node.left, node.right)]
        if None not in kinds and node.op.text not in ('&&', '||'):
            for side in (node.left, node.right):
                for each in self.pointers_in(side):
                    each.is_compared = True

    def pointers_in(self, node):
        """The pointer variables whose value an expression of pointers is made of."""
        node = stripped(node)
        if node.kind == 'name' and node.symbol is not None and isinstance(node.symbol.type, Pointer):
            yield node.symbol
        for part in ('left', 'operand', 'yes', 'no', 'right'):
            below = node.__dict__.get(part)
            if isinstance(below, Node) and node.kind in ('binary', 'unary', 'postfix', 'choose', 'cast', 'assign'):
                if typing.pointed(below):
                    yield from self.pointers_in(below)

    def cast(self):
        """A cast, a vector in parentheses, or what stands behind."""
        if not (self.is_next('(') and self.starts_type(1)):
            return self.unary()
        start = self.take()
        kind = self.type_name()
        self.expect(')')
        if self.is_next('{'):
            return self.behind(self.literal(start, kind))
        if isinstance(kind, Vector) and self.is_next('('):
            return self.vector(start, kind)
        node = self.made('cast', start, kind, operand=self.cast())
        if isinstance(kind, Pointer):
            self.casts.append(node)
        return node

    def literal(self, start, kind):
        """A compound literal: of numbers and vectors what is in the braces, else a variable without a name."""
        listed = self.initial()
        if isinstance(kind, (types.Struct, Array)):
            kind = completed(kind, listed, start)
            if isinstance(types.element(kind), Vector) or types.size_of(kind) is None:
                raise Refused(start, 'a compound literal of this type')
            return self.made('literal', start, kind, list=listed)
        plain = all(item.kind != 'list' and not item.places for item in listed.items)
        if not isinstance(kind, (Scalar, Vector)) or not plain or not listed.items:
            raise Refused(start, 'a compound literal of this form')
        if isinstance(kind, Scalar):
            return self.made('cast', start, kind, operand=listed.items[0])
        counts = sum(item.type.count if isinstance(item.type, Vector) else 1 for item in listed.items)
        zeros = [self.made('number', in_source(start, '0'), types.INT, value=0) for _ in range(kind.count - counts)]
        if counts > kind.count:
            raise Refused(start, '%d components for a vector of %d' % (counts, kind.count))
        return self.made('vector', start, kind, items=listed.items + zeros)

    def vector(self, start, kind):
        """A vector that is made of a list of numbers and vectors."""
        self.expect('(')
        items = [self.assignment()]
        while self.is_next(','):
            self.take()
            items.append(self.assignment())
        self.expect(')')
        counts = sum(item.type.count if isinstance(item.type, Vector) else 1 for item in items)
        if counts != kind.count and not (len(items) == 1 and types.is_number(items[0].type)):
            raise Refused(start, '%d components for a vector of %d' % (counts, kind.count))
        node = self.made('vector', start, kind, items=items)
        return self.behind(node)

    def unary(self):
        """An operator in front, or what stands behind."""
        token = self.peek()
        if token.kind == 'mark' and token.text in ('++', '--'):
            op = self.take()
            node = Node('unary', op, op=op, operand=self.unary())
            self.touched(node.operand)
        elif token.kind == 'mark' and token.text in ('+', '-', '~', '!', '&', '*'):
            op = self.take()
            node = Node('unary', op, op=op, operand=self.cast())
            self.addressed(node)
        elif token.text == 'sizeof':
            return self.size_of()
        else:
            return self.postfix()
        node.type = typing.unary_type(node)
        return node

    def addressed(self, node):
        """Notes a variable whose address is taken."""
        target = stripped(node.operand)
        if node.op.text == '&' and target.kind == 'name' and target.symbol is not None:
            if target.symbol.kind == 'function':
                raise Refused(node.token, 'a pointer to a function')
            target.symbol.is_addressed = True

    def size_of(self):
        """`sizeof` of a type or of an expression, which is not evaluated."""
        start = self.take()
        if self.is_next('(') and self.starts_type(1):
            self.take()
            kind = self.type_name()
            self.expect(')')
        else:
            kind = self.unary().type
        value = types.size_of(kind)
        if value is None:
            raise Refused(start, 'sizeof of what has no size here')
        return self.made('sizeof', start, types.ULONG, value=value)

    def postfix(self):
        """A primary expression and what stands behind it."""
        return self.behind(self.primary())

    def behind(self, node):
        """Indices, selections, fields, `++` and `--` behind an expression."""
        while self.peek().kind == 'mark':
            text = self.peek().text
            if text == '[':
                start = self.take()
                at = self.expression()
                node = Node('index', node.token, base=node, start=start, at=at, end=self.expect(']'))
                if typing.pointed(node.base) is None and typing.pointed(node.at) is not None:
                    node.base, node.at = node.at, node.base
                node.type = typing.index_type(node)
                if isinstance(node.type, Pointer):
                    node = self.chosen_pointer(node)
            elif text in ('.', '->'):
                point = self.take()
                node = Node('member', node.token, base=node, point=point, is_arrow=text == '->', name=self.take())
                node.type = typing.member_type(node)
            elif text in ('++', '--'):
                node = self.made('postfix', node.token, node.type, op=self.take(), operand=node)
                self.touched(node.operand)
            else:
                break
        return node

    def primary(self):
        """A number, a name, a call, a constant of characters, or an expression in parentheses."""
        token = self.take()
        if token.kind == 'number':
            value, kind = constants.number(token)
            return self.made('number', token, kind, value=value)
        if token.kind == 'char':
            values = characters(token)
            if len(values) != 1:
                raise Refused(token, 'a constant of %d characters' % len(values), 'character')
            return self.made('number', token, types.INT, value=values[0])
        if token.kind == 'string':
            return self.string(token)
        if token.text == '(' and token.kind == 'mark':
            inner = self.expression()
            return self.made('paren', token, inner.type, inner=inner, end=self.expect(')'))
        if token.kind == 'name':
            return self.name(token)
        raise Refused(token, 'syntax: %r stands where an expression is expected' % token.text)

    def string(self, token):
        """String constants that stand one behind the other."""
        values = characters(token)
        while self.peek().kind == 'string':
            values += characters(self.take())
        kind = Array(Scalar('char'), len(values) + 1)
        return self.made('string', token, kind, values=values + [0])

    def name(self, token):
        """A variable, an enumerator, a truth value or a call."""
        if token.text in ('true', 'false'):
            return self.made('number', token, types.INT, value=int(token.text == 'true'))
        symbol = self.scope.find(token.text)
        if symbol is not None and symbol.kind == 'refused':
            raise symbol.refused
        if self.is_next('(') and (symbol is None or symbol.kind == 'function'):
            return self.call(token, symbol)
        if symbol is None and token.text in CONSTANT_NAMES:
            symbol = Symbol('flag', token.text, types.UINT, token)
        if symbol is None or symbol.kind == 'typedef':
            raise Refused(token, 'the name %s is not known (a name of the build is given by -D)' % token.text)
        return self.made('name', token, symbol.type, symbol=symbol)

    def call(self, token, symbol):
        """A call of a function of the source or of a built-in one."""
        self.expect('(')
        arguments = []
        while not self.is_next(')'):
            arguments.append(self.assignment())
            if not self.is_next(')'):
                self.expect(',')
        self.take()
        node = Node('call', token, name=token.text, symbol=symbol, arguments=arguments)
        if symbol is None:
            node.type = built_in.call_type(node)
        else:
            if len(arguments) != len(symbol.type.parameters):
                raise Refused(token, '%s takes %d arguments' % (token.text, len(symbol.type.parameters)))
            if isinstance(symbol.type.result, Pointer):
                return self.call_written_out(token, symbol, arguments)
            node.type = symbol.type.result
            self.calls.append((self.function, symbol, node))
        return node
