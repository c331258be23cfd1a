"""What is written out where it is used, since `wgcc` has no value for it: functions that return a pointer, and arrays
of pointers."""
from . import types
from .notes import Refused
from .tokens import Token, in_source
from .tree import Node, all_of, has_effect, is_simple, stripped
from .types import Array, Pointer


class WrittenOut:
    """The part of the reader that writes such forms out."""

    def keep_body(self, node, name, mark):
        """Keeps what a function that returns a pointer returns; one that does more than that is refused. Its parameters
        are no variables of the text."""
        del self.symbols[mark:]
        if node.body is None:
            return
        items = node.body.items
        if len(items) != 1 or items[0].kind != 'return' or items[0].value is None:
            raise Refused(name, 'a function that returns a pointer, and is more than one `return`',
                          'function_that_returns_a_pointer')
        if has_effect(items[0].value) or any(
                each.kind == 'unary' and each.op.text == '&' and stripped(each.operand).kind == 'name'
                for each in all_of(items[0].value)):
            raise Refused(name, 'a function that returns a pointer, and changes something',
                          'function_that_returns_a_pointer')
        node.symbol.returned = items[0].value
        self.notes.add('a function that returns a pointer is written out where it is called', name)

    def call_written_out(self, token, symbol, arguments):
        """A call of such a function: what it returns, with the arguments in the place of the parameters."""
        returned = getattr(symbol, 'returned', None)
        if returned is None:
            raise Refused(token, 'a function that returns a pointer', 'function_that_returns_a_pointer')
        values = {}
        for parameter, argument in zip(symbol.node.parameters, arguments):
            uses = sum(each.kind == 'name' and each.symbol is parameter for each in all_of(returned))
            if uses != 1 and not is_simple(argument) and (uses or has_effect(argument)):
                text = 'an argument that is used %d times' % uses
                raise Refused(argument.token, text, 'function_that_returns_a_pointer')
            if types.is_number(parameter.type) and argument.type != parameter.type:
                argument = self.made('cast', in_source(token, '('), parameter.type,
                                     operand=self.between(token, argument))
            values[parameter] = argument
        return self.between(token, self.copied_for(returned, values, token))

    def between(self, token, node):
        """An expression in parentheses."""
        return self.made('paren', in_source(token, '('), node.type, inner=node, end=in_source(token, ')'))

    def copied_for(self, node, values, token):
        """A copy of an expression that stands where a token does, with values in the place of variables."""
        if node.kind == 'name' and node.symbol in values:
            return self.between(token, values[node.symbol])
        found = Node(node.kind, None)
        for name, part in node.__dict__.items():
            if isinstance(part, Node):
                part = self.copied_for(part, values, token)
            elif isinstance(part, list) and part and isinstance(part[0], Node):
                part = [self.copied_for(each, values, token) for each in part]
            elif isinstance(part, Token):
                part = Token(part.kind, part.text, token.file, token.line, token.column, part.is_apart)
            found.__dict__[name] = part
        if found.kind == 'cast' and isinstance(found.type, Pointer):
            self.casts.append(found)
        if found.kind == 'call' and found.symbol is not None:
            self.calls.append((self.function, found.symbol, found))
        return found

    def keep_pointers(self, symbol, initial):
        """An array of pointers is the pointers in its list."""
        if initial is None or initial.kind != 'list' or symbol.type.length not in (None, len(initial.items)):
            text = 'an array of pointers that does not start as a list of them'
            raise Refused(symbol.token, text, 'array_of_pointers')
        for item in initial.items:
            if item.places or item.kind == 'list' or not isinstance(item.type, (Pointer, Array)) or has_effect(item):
                raise Refused(item.token, 'an array of pointers of this form', 'array_of_pointers')
        symbol.pointers = initial.items
        self.arrays_of_pointers.append(symbol)
        self.notes.add('an array of pointers is a choice where it is used', symbol.token)

    def chosen_pointer(self, node):
        """An element of an array of pointers: a choice among these."""
        at, items = node.at, node.base.symbol.pointers
        if has_effect(at):
            raise Refused(at.token, 'an index of an array of pointers that changes something', 'array_of_pointers')
        token, found = node.token, self.copied_for(items[-1], {}, node.token)
        for number in range(len(items) - 2, -1, -1):
            one = self.made('number', in_source(token, str(number)), types.INT, value=number)
            test = self.made('binary', token, types.INT, left=self.between(token, at), op=in_source(token, '=='),
                             right=one)
            yes = self.copied_for(items[number], {}, token)
            found = self.made('choose', token, node.base.symbol.type.of, test=self.between(token, test),
                              mark=in_source(token, '?'), yes=yes, colon=in_source(token, ':'), no=found)
        return self.between(token, found)

    def look_at_arrays_of_pointers(self):
        """The pointers of an array stay what they are."""
        for symbol in self.arrays_of_pointers:
            for item in symbol.pointers:
                for each in all_of(item):
                    if each.kind == 'name' and each.symbol.kind == 'variable' and (
                            each.symbol.is_assigned or each.symbol.is_addressed):
                        text = 'an array of pointers, of which one is changed: %s' % each.symbol.name
                        raise Refused(symbol.token, text, 'array_of_pointers')
