"""The unit of a source is read: functions, tables, and the names of types."""
from . import types
from .declarations import Declarations
from .expressions import Expressions
from .notes import Refused
from .starts import completed
from .statements import Statements
from .tokens import Token
from .tree import Node, Scope, Symbol
from .types import Array, Function, Other, Pointer
from .written_out import WrittenOut


class Declarator:
    """A variable that is declared."""

    def __init__(self, symbol, initial):
        self.symbol, self.initial = symbol, initial


class Reader(Expressions, Statements, Declarations, WrittenOut):
    """Reads a unit from its tokens."""

    def __init__(self, tokens, notes):
        self.tokens, self.notes, self.at = tokens, notes, 0
        last = tokens[-1] if tokens else None
        self.end = Token('end', 'the end', last and last.file, last.line if last else 1, 0, True)
        self.scope, self.function, self.calls, self.casts = Scope(), None, [], []
        self.aligned = None
        self.symbols, self.refused, self.arrays_of_pointers = [], [], []

    def peek(self, ahead=0):
        """The next token, or one behind it."""
        return self.tokens[self.at + ahead] if self.at + ahead < len(self.tokens) else self.end

    def take(self):
        """The next token, which is read with that."""
        token = self.peek()
        if token is self.end:
            raise Refused(token, 'syntax: the source ends too early')
        self.at += 1
        return token

    def is_next(self, text):
        """Whether a mark is next."""
        return self.peek().text == text and self.peek().kind == 'mark'

    def expect(self, text):
        """Reads a mark that has to be there."""
        if not self.is_next(text):
            raise Refused(self.peek(), 'syntax: %r stands where %r is expected' % (self.peek().text, text))
        return self.take()

    def unit(self):
        """The parts of the source, in their order."""
        parts = []
        while self.at < len(self.tokens):
            if self.is_next(';'):
                self.take()
                continue
            part = self.outer_or_refused()
            if part is not None:
                parts.append(part)
        self.look_at_arrays_of_pointers()
        return parts

    def outer_or_refused(self):
        """A part of the source. What is refused is kept as that, since it may not be needed."""
        start, outside = self.at, self.scope
        try:
            return self.outer()
        except Refused as refused:
            name = self.skip_function(start)
            names = [name] if name is not None else self.skip_declaration(start)
            if not names:
                raise
            self.scope, self.function = outside, None
            for name in names:
                symbol = Symbol('refused', name.text, types.VOID, name)
                symbol.refused = refused
                outside.names[name.text] = symbol
                self.refused.append(symbol)
            return None

    def skip_declaration(self, start):
        """Goes behind the declaration that begins there; the names that it declares."""
        depth, names, self.at = 0, [], start
        while self.at < len(self.tokens):
            token = self.take()
            if token.kind == 'name' and depth == 0 and self.peek().text in (';', ',', '=', '['):
                names.append(token)
            if token.kind == 'mark':
                depth += {'(': 1, '[': 1, '{': 1, ')': -1, ']': -1, '}': -1}.get(token.text, 0)
                if depth == 0 and token.text == ';':
                    return names
        return []

    def skip_function(self, start):
        """Goes to the end of the function that begins there; its name, or None where it is none."""
        depth, name, self.at = 0, None, start
        while self.at < len(self.tokens):
            token = self.take()
            if depth == 0 and self.is_next('(') and token.kind == 'name' and token.text != '__attribute__':
                name = token
            depth += {'(': 1, '[': 1, ')': -1, ']': -1}.get(token.text, 0) if token.kind == 'mark' else 0
            if depth == 0 and token.text in (';', '=') and token.kind == 'mark':
                return None if token.text == '=' else name
            if depth == 0 and token.text == '{' and token.kind == 'mark':
                return name if name is not None and self.skip_block() else None
        return None

    def skip_block(self):
        """Goes behind the end of a block whose start was read."""
        depth = 1
        while depth and self.at < len(self.tokens):
            token = self.take()
            depth += {'{': 1, '}': -1}.get(token.text, 0) if token.kind == 'mark' else 0
        return depth == 0

    def outer(self):
        """A function, or a declaration at the outer level."""
        start = self.at
        found = self.specifiers()
        name, kind = (None, found.type) if self.is_next(';') else self.declarator(found.type, found)
        if name is not None and self.is_next('('):
            return self.whole_function(found, name, kind)
        self.at = start
        return self.declaration()

    def declaration(self):
        """A declaration of variables or of names of types; None where nothing is left of it."""
        found = self.specifiers()
        declarators = []
        self.aligned = None
        while not self.is_next(';'):
            name, kind = self.declarator(found.type, found)
            if name is None:
                raise Refused(self.peek(), 'syntax: a name is expected')
            self.attributes(found)
            if 'typedef' in found.storage:
                if isinstance(kind, Array) and isinstance(kind.of, Pointer):
                    raise Refused(name, 'an array of pointers')
                self.scope.names[name.text] = Symbol('typedef', name.text, kind, name, found.space or 'private')
            else:
                declarators += self.variable(found, name, kind)
            if not self.is_next(','):
                break
            self.take()
        end = self.expect(';')
        if not declarators:
            return None
        return Node('declaration', found.token, declarators=declarators, specifiers=found, end=end)

    def variable(self, found, name, kind):
        """One variable of a declaration; none where it is written out."""
        space = 'private' if isinstance(kind, Pointer) else found.space or 'private'
        if self.function is None and space == 'private':
            if not (found.is_const or isinstance(kind, Pointer) and kind.space == 'constant'):
                raise Refused(name, 'a variable outside functions that is not constant')
            space = 'constant'
            self.notes.add('`static const` is `__constant`', name)
        if self.function is not None and 'static' in found.storage:
            if not found.is_const and found.space != 'constant':
                raise Refused(name, 'a static variable in a function')
            space = 'constant'
        symbol = Symbol('variable', name.text, kind, name, space)
        symbol.function, symbol.is_const = self.function, found.is_const
        self.scope.names[name.text] = symbol
        self.symbols.append(symbol)
        initial = None
        if self.is_next('='):
            self.take()
            initial = self.initial()
        if isinstance(kind, Array) and isinstance(kind.of, Pointer):
            self.symbols.pop()
            self.keep_pointers(symbol, initial)
            return []
        symbol.type = completed(kind, initial, name)
        symbol.initial = initial
        if isinstance(symbol.type, Pointer) and initial is not None:
            symbol.sources.append(initial)
        elif isinstance(types.element(kind), Other) and types.element(kind).name != 'event_t':
            raise Refused(name, 'floating point, or a type without values here: %s' % types.element(kind).name)
        if isinstance(kind, types.Void) or types.size_of(symbol.type) is None \
                and not isinstance(types.element(kind), Other):
            raise Refused(name, 'a variable of a type without a size')
        return [Declarator(symbol, initial)]

    def whole_function(self, found, name, result):
        """A function or its prototype."""
        self.expect('(')
        outside = self.scope
        self.scope, mark = Scope(outside), len(self.symbols)
        parameters = self.parameters()
        self.attributes(found)
        kind = Function(result, [symbol.type for symbol in parameters], [symbol.name for symbol in parameters])
        symbol = outside.names.get(name.text)
        if symbol is None or symbol.kind != 'function':
            symbol = Symbol('function', name.text, kind, name)
            symbol.is_called = False
            outside.names[name.text] = symbol
            self.symbols += [] if isinstance(result, Pointer) else [symbol]
        is_kernel = 'kernel' in found.storage
        node = Node('function', found.token, symbol=symbol, parameters=parameters, is_kernel=is_kernel,
                    specifiers=found, name=name, body=None)
        for each in parameters:
            each.is_kernel_parameter, each.function = is_kernel, node
            self.symbols.append(each)
        if self.is_next(';'):
            self.take()
        else:
            self.function = symbol.node = node
            symbol.type = kind
            node.body = self.block()
            self.function = None
        self.scope = outside
        if isinstance(result, Pointer):
            return self.keep_body(node, name, mark)
        if isinstance(result, (Other, types.Array)):
            raise Refused(name, 'floating point, or a type without values here')
        return node

    def parameters(self):
        """The parameters of a function, each a variable of its scope."""
        found = []
        while not self.is_next(')'):
            words = self.specifiers()
            name, kind = self.declarator(words.type, words)
            self.attributes(words)
            if isinstance(kind, types.Void) and name is None and not found:
                break
            if isinstance(kind, Array):
                kind = Pointer(kind.of, words.space or 'private', words.is_const)
                self.notes.add('an array as a parameter is a pointer', name or words.token)
            if isinstance(kind, Other) or isinstance(kind, Pointer) and isinstance(kind.to, (Other, types.Void)):
                raise Refused(name or words.token, 'floating point, or a parameter without values here')
            spelling = name.text if name is not None else 'port_parameter_%d' % len(found)
            symbol = Symbol('variable', spelling, kind, name or words.token)
            symbol.is_parameter, symbol.is_const = True, words.is_const
            self.scope.names[spelling] = symbol
            found.append(symbol)
            if not self.is_next(','):
                break
            self.take()
        self.expect(')')
        return found
