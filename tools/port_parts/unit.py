"""The whole source as `wgcc` takes it."""
from . import built_in, forms, pointers, types
from .bodies import Bodies
from .calls import Calls
from .cells import Address, Index, cells_of
from .context import Names
from .forms import CELLS, MOVING
from .gotos import Gotos
from .layout import plain
from .lower import Numbers, is_stable
from .notes import Refused
from .places import Places, Target
from .rewrites import Rewrites
from .tokens import in_source
from .tree import all_of, expressions_of, statements_of, stripped
from .types import Pointer, Struct, Vector
from .variables import SPACE_WORDS, Variables
from .vectors import Vectors
from .structs import Structs

BY_FLOAT = ('long port_by_float(long x) { ulong m = abs(x); int s = 40 - (int)clz(m); if (s <= 0) return x; '
            'ulong middle = 1UL << (s - 1); ulong low = m & ((1UL << s) - 1UL); ulong odd = (m >> s) & 1UL; m -= low; '
            'if (low > middle || (low == middle && odd)) m += 1UL << s; return x < 0 ? -(long)m : (long)m; } ')


class Unit(Numbers, Places, Vectors, Calls, Rewrites, Bodies, Variables, Structs):
    """Writes a unit."""

    def __init__(self, reader, notes):
        self.reader, self.notes = reader, notes
        self.names = Names(token.text for token in reader.tokens)
        self.function, self.hoisted, self.made, self.splits = None, [], {}, {}
        self.needs_float = False
        self.arguments_of_kernels = {}

    def prepare(self, parts):
        """Looks at all variables and functions before anything is written."""
        pointers.look_at(self.reader.symbols)
        forms.look_at_casts(self.reader.casts)
        forms.look_at_arguments(self.reader.calls)
        outer = {}
        for symbol in self.reader.symbols:
            if symbol.kind == 'function':
                symbol.as_number = False
                if symbol.name in built_in.OWN:
                    symbol.out = self.names.like(symbol.name + '_here')
                    self.notes.add('a function with the name of a built-in one has another', symbol.token)
                continue
            forms.decide(symbol, self.notes, self.names)
            if symbol.space == 'constant' and not isinstance(symbol.type, Pointer):
                while outer.setdefault(symbol.out, symbol) is not symbol:
                    symbol.out = self.names.like(symbol.out + '_')
        for symbol in self.reader.symbols:
            if symbol.kind == 'variable' and isinstance(symbol.type, Pointer) and not symbol.is_parameter:
                forms.share_cells(symbol, self.notes)
        self.unique_bases()
        for part in parts:
            if part.kind == 'function' and part.body is not None:
                for statement in statements_of(part.body):
                    self.look_at_calls(statement)
                Gotos(self.names, self.notes).block(part.body)

    def unique_bases(self):
        """An object to which a moving pointer leads has a name that nothing else has."""
        by_name = {}
        for symbol in self.reader.symbols:
            by_name.setdefault(symbol.name, []).append(symbol)
        for symbol in self.reader.symbols:
            for base in getattr(symbol, 'bases', []) if symbol.kind == 'variable' and symbol.is_moving else []:
                if base.kind == 'variable' and base.out == base.name and any(
                        other.function is base.function and other is not base for other in by_name[base.name]):
                    base.out = self.names.like(base.name + '_')

    def look_at_calls(self, statement):
        """A function without a value whose call is a part of an expression returns a number."""
        for whole in expressions_of(statement):
            top = stripped(whole)
            for node in all_of(whole):
                if node.kind == 'call' and node.symbol is not None and isinstance(node.type, types.Void):
                    is_whole = statement.kind == 'expression' or whole is statement.__dict__.get('step')
                    if node is not top or not is_whole or any(self.is_among(each) for each in node.arguments):
                        self.as_number(node.symbol)

    def is_among(self, node):
        """Whether an argument is a pointer to one of several objects."""
        return isinstance(node.type, Pointer) and len(pointers.bases_of(node)) > 1

    def as_number(self, symbol):
        """Says that a function without a value returns a number."""
        if symbol.node is not None and symbol.node.is_kernel:
            raise Refused(symbol.token, 'a kernel that is called inside an expression')
        symbol.as_number = True

    def is_stable(self, node, later):
        """Whether a later expression leaves the value of an earlier one."""
        return is_stable(node, later)

    def index_number(self, number):
        """A constant number of elements."""
        return Index(number)

    def index_of(self, name):
        """A variable as a number of elements."""
        return Index(0, [(name, 1)])

    def write(self, parts):
        """The text of the unit."""
        self.prepare(parts)
        found = []
        for part in parts:
            if part.kind == 'function':
                text = self.function_text(part)
                found += [self.hoisted, text]
                self.hoisted = []
            else:
                found += [[in_source(part.token, ''), self.table(each.symbol, each.initial), ' ']
                          for each in part.declarators]
        texts = [text() if callable(text) else text for text in found]
        return [BY_FLOAT if self.needs_float else '', texts]

    def function_text(self, node):
        """A function or a prototype. A kernel is written at the end, when it is known whether it is called."""
        symbol, result = node.symbol, node.symbol.type.result
        self.function = node
        is_stored = isinstance(result, (Vector, Struct))
        node.result_name = self.names.like('port_result')
        parameters, prologue = self.parameter_texts(node)
        if is_stored:
            cells = cells_of(result, 'private')
            parameters = [['%s *%s' % (cells.name, node.result_name)]] + parameters
        joined = []
        for parameter in parameters:
            joined += [', ', parameter] if joined else [parameter]
        word = 'int' if is_stored or symbol.as_number else 'void' if isinstance(result, types.Void) \
            else types.spelled(result)
        if node.body is None:
            if node.is_kernel:
                return []
            return [in_source(node.token, word), ' ', in_source(node.name, symbol.out), '(', joined, ');']
        body = [node.body.token, prologue, self.items(node.body.items), node.body.end]
        if not node.is_kernel:
            return [in_source(node.token, word), ' ', in_source(node.name, symbol.out), '(', joined, ')', body]
        names = [name for each in self.argument_names(node) for name in each]
        return lambda: self.kernel_text(node, joined, body, names)

    def kernel_text(self, node, parameters, body, names):
        """A kernel; one that is called is a function too."""
        attributes = [[' __attribute__', plain(inner)] for inner in node.specifiers.attributes]
        head = [in_source(node.token, '__kernel'), attributes, ' void ']
        if not getattr(node.symbol, 'is_called', False):
            return [head, node.name, '(', parameters, ')', body]
        if any(symbol.space == 'local' and symbol.function is node for symbol in self.reader.symbols):
            raise Refused(node.token, 'a kernel with local variables that is called', 'kernel_that_is_called')
        called = node.symbol.out + '_called'
        return [in_source(node.token, 'void '), called, '(', parameters, ')', body, ' ', plain(head), node.symbol.out,
                '(', plain(parameters), ') { %s(%s); }' % (called, ', '.join(names))]

    def argument_names(self, node):
        """The names of the parameters that each parameter becomes."""
        return [each.parts for each in node.parameters]

    def parameter_texts(self, node):
        """The parameters, and what stands at the start of the body."""
        found, prologue = [], []
        for symbol in node.parameters:
            kind = symbol.type
            if isinstance(kind, Pointer):
                found.append(self.pointer_parameter(symbol, prologue))
            elif isinstance(kind, (Vector, Struct)):
                found += self.parts_of_parameter(symbol, prologue, node)
            else:
                found.append(self.number_parameter(symbol, prologue))
        return found, prologue

    def number_parameter(self, symbol, prologue):
        """A parameter that is a number."""
        kind = symbol.type
        const = 'const ' if symbol.is_const else ''
        if symbol.form != CELLS:
            symbol.parts = [symbol.out]
            return [in_source(symbol.token, ''), const + types.spelled(kind), ' ', in_source(symbol.token, symbol.out)]
        name = self.names.like(symbol.out + '_in')
        symbol.parts = [name]
        prologue.append(' %s %s[1] = { %s };' % (symbol.cells.name, symbol.out, name))
        return [in_source(symbol.token, ''), types.spelled(kind), ' ', name]

    def pointer_parameter(self, symbol, prologue):
        """A parameter that is a pointer."""
        kind = symbol.type
        symbol.parts = [symbol.out]
        const = 'const ' if kind.is_const else ''
        if symbol.form == MOVING:
            which, at = pointers.names_of_moving(symbol)
            if len(symbol.bases) > 1:
                prologue.append(' int %s = %d;' % (which, symbol.bases.index(symbol)))
            prologue.append(' long %s = 0;' % at)
        text = SPACE_WORDS[kind.space] + const + symbol.cells.name
        return [in_source(symbol.token, ''), text, ' *', in_source(symbol.token, symbol.out)]

    def parts_of_parameter(self, symbol, prologue, node):
        """A vector or a structure as a parameter: a parameter for each of its numbers."""
        kind = symbol.type
        leaves = list(types.leaves(kind))
        symbol.parts = [self.names.like('%s_%d' % (symbol.out, number)) for number in range(len(leaves))]
        if node.is_kernel:
            self.arguments_of_kernels.setdefault(node.symbol.name, {})[node.parameters.index(symbol)] = [
                [leaf.name, at] for leaf, at in leaves]
            self.notes.add('kernel %s: the argument %s is one for each number: %s' % (
                node.symbol.name, symbol.name, ', '.join(symbol.parts)), symbol.token)
        if isinstance(kind, Vector):
            text = plain(self.listed(kind, list(symbol.parts)))
            if symbol.form == CELLS:
                prologue.append(' %s %s[1]; %s[0] = %s;' % (symbol.cells.name, symbol.out, symbol.out, text))
            else:
                prologue.append(' %s %s = %s;' % (types.spelled(kind), symbol.out, text))
        else:
            prologue.append(' %s %s[%d];' % (symbol.cells.name, symbol.out, symbol.cells.count(kind)))
            place = Address([symbol.out], None, Index(), symbol.cells, kind, 'private')
            for (leaf, index), name in zip(self.places_of_leaves(place, kind), symbol.parts):
                prologue.append([' ', Target(None, place.at(Index(index), leaf)).store('=', name, False), ';'])
        return [[in_source(symbol.token, ''), leaf.name, ' ', name] for (leaf, _), name in zip(leaves, symbol.parts)]
