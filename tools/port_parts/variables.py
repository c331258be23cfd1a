"""Declarations of variables as `wgcc` takes them."""
from . import constants, types
from .cells import Address, Index
from .forms import CELLS, EVENT, MOVING
from .layout import plain
from .notes import Refused
from .places import Target, base_text
from .pointers import names_of_moving
from .starts import numbers_of
from .tokens import in_source
from .tree import stripped
from .types import Array, Pointer, Scalar, Struct, Vector, element

SPACE_WORDS = {'global': '__global ', 'local': '__local ', 'constant': '__constant ', 'private': ''}


class Variables:
    """The part of the lowering that writes declarations."""

    def declared(self, node):
        """The declarations that one is, with their steps in front of them."""
        context = self.context()
        texts = self.declarations_of(node, context, True)
        return [self.front(context), [[text, ' '] for text in texts]]

    def declarations_of(self, node, context, in_block=False):
        """The texts of the declarations that one becomes. Those of one type stay together."""
        texts, group, spec_of_group = [], [], None
        for declarator in node.declarators:
            symbol = declarator.symbol
            if symbol.form == EVENT:
                text = self.event(declarator.initial, context) if declarator.initial is not None else []
                continue
            if symbol.space == 'constant' and not isinstance(symbol.type, Pointer):
                self.hoist(declarator, node)
                continue
            mark = len(context.steps)
            spec, text, behind = self.declarator(declarator, context)
            has_steps = len(context.steps) > mark
            if group and (spec != spec_of_group or has_steps and in_block):
                if has_steps and in_block:
                    later, context.steps = context.steps[mark:], context.steps[:mark]
                    texts.append([self.front(context), self.group_text(node, spec_of_group, group, not texts)])
                    context.variables.clear()
                    context.steps = later
                else:
                    texts.append(self.group_text(node, spec_of_group, group, not texts))
                group = []
            spec_of_group = spec
            group.append(text)
            if behind:
                texts += [self.group_text(node, spec, group, not texts), behind]
                group = []
        if group:
            texts.append(self.group_text(node, spec_of_group, group, not texts))
        return texts

    def group_text(self, node, spec, group, is_first):
        """One declaration."""
        found = [in_source(node.token, spec) if is_first else spec]
        for number, text in enumerate(group):
            found += [', ' if number else ' ', text]
        return [found, ';']

    def declarator(self, declarator, context):
        """What stands in front of a variable, its declarator, and what has to be done behind."""
        symbol, initial = declarator.symbol, declarator.initial
        kind = symbol.type
        if isinstance(kind, Pointer):
            return self.pointer_declarator(symbol, initial, context)
        if symbol.form == CELLS:
            return self.cells_declarator(symbol, initial, context)
        name = in_source(symbol.token, symbol.out)
        spec = self.spec_of(symbol)
        if isinstance(kind, Array):
            return self.array_declarator(symbol, initial, context, spec, name)
        if initial is None:
            return spec, name, []
        if initial.kind == 'list':
            return spec, [name, ' = ', self.from_list(kind, initial, context)], []
        if isinstance(kind, Vector):
            return spec, [name, ' = ', self.vector_start(kind, initial, context)], []
        return spec, [name, ' = ', self.converted(initial, kind, context)], []

    def spec_of(self, symbol):
        """The words in front of a variable."""
        const = 'const ' if symbol.is_const and symbol.space != 'constant' else ''
        return SPACE_WORDS[symbol.space] + const + types.spelled(element(symbol.type))

    def vector_start(self, kind, initial, context):
        """The vector that a variable starts as."""
        if isinstance(initial.type, Vector):
            if initial.type != kind:
                raise Refused(initial.token, 'a variable that starts as another type of vectors', 'vector_conversion')
            return self.vector(initial, context)
        self.notes.add('a number that is assigned to a vector fills all components', initial.token)
        return ['(%s)(' % types.spelled(kind), self.converted(initial, Scalar(kind.base), context), ')']

    def from_list(self, kind, initial, context):
        """What a list gives a number or a vector."""
        values = numbers_of(kind, initial)
        parts = [self.leaf(values.get(number), leaf, context) for number, (leaf, _) in enumerate(types.leaves(kind))]
        self.notes.add('a list in braces for a variable', initial.token)
        return self.listed(kind, parts) if isinstance(kind, Vector) else parts[0]

    def leaf(self, found, kind, context):
        """One number of a list: an expression, a component of one, or 0."""
        if found is None:
            return '0'
        if isinstance(found, int):
            return '%d' % found if found >= 0 else '(%d)' % found
        node, number = found
        if number is None:
            return self.converted(node, kind, context)
        key = id(node)
        if key not in self.splits:
            parts = self.split(node, context)
            self.splits[key] = (node, parts if len(parts) < 2 else self.kept(node.type, parts, context))
        return self.splits[key][1][number]

    def is_plain_list(self, kind, initial):
        """Whether `wgcc` takes a list as it is written."""
        return initial.kind == 'list' and all(item.kind not in ('list', 'string') and not item.places
                                              and types.is_number(item.type) for item in initial.items)

    def array_declarator(self, symbol, initial, context, spec, name):
        """An array that `wgcc` has."""
        kind, lengths = symbol.type, []
        while isinstance(kind, Array):
            lengths.append('[%d]' % kind.length)
            kind = kind.of
        text = [name, ''.join(lengths)]
        if initial is None:
            return spec, text, []
        if isinstance(kind, Vector):
            spec = spec.replace('const ', '')
            return spec, text, self.vectors_behind(symbol, initial, context)
        if self.is_plain_list(symbol.type, initial) and initial.items:
            items = []
            for item in self.in_order(initial.items, context, lambda each, here: self.converted(each, kind, here)):
                items += [', ', item] if items else [item]
            return spec, [text, ' = { ', items, ' }'], []
        return spec, [text, ' = ', self.list_text(symbol.type, initial, context)], []

    def list_text(self, kind, initial, context):
        """A list without lists inside."""
        self.notes.add('a string as a list of numbers' if initial.kind == 'string' else
                       'lists in lists, and lists that name their places, written as one list', initial.token)
        values = numbers_of(kind, initial)
        last = max(values, default=0)
        items = []
        for number, (leaf, _) in enumerate(types.leaves(kind)):
            if number > last:
                break
            items += [', '] if items else []
            items.append(self.leaf(values.get(number), leaf, context))
        return ['{ ', items, ' }']

    def vectors_behind(self, symbol, initial, context):
        """The elements of an array of vectors are set behind its declaration."""
        self.notes.add('an array of vectors is filled behind its declaration', symbol.token)
        values = numbers_of(symbol.type, initial)
        kind, found = symbol.type.of, []
        for number in range(symbol.type.length):
            own = [values.get(number * kind.count + at) for at in range(kind.count)]
            if all(each is None for each in own):
                continue
            first = own[0]
            inner = self.context()
            if isinstance(first, tuple) and first[1] == 0 and all(
                    isinstance(each, tuple) and each[0] is first[0] for each in own) and first[0].type == kind:
                text = self.vector(first[0], inner)
            else:
                text = self.listed(kind, [self.leaf(each, Scalar(kind.base), inner) for each in own])
            found.append([self.whole(inner, [symbol.out, '[%d] = ' % number, text, ';'], symbol.token), ' '])
        return found

    def pointer_declarator(self, symbol, initial, context):
        """A pointer variable."""
        kind = symbol.type
        if symbol.form == MOVING:
            which, at = names_of_moving(symbol)
            if initial is None:
                found = [], ['long ', at, ' = 0;']
                text = ['int ', which, ' = 0; '] if len(symbol.bases) > 1 else []
                del found
                return 'long', [at, ' = 0'], self.behind_moving(text)
            address = self.pointer(initial, context)
            parts = self.set_moving(symbol, address, ' = ', '\0')
            if len(symbol.bases) > 1:
                behind = ['int ', parts[0], parts[1], parts[2], ';']
                return 'long', parts[4:], behind
            return 'long', parts, []
        const = 'const ' if kind.is_const else ''
        spec = SPACE_WORDS[kind.space] + const + symbol.cells.name
        name = ['*', in_source(symbol.token, symbol.out)]
        if initial is None:
            if not symbol.bases:
                raise Refused(symbol.token, 'a pointer that is never set')
            self.notes.add('a pointer without an initialiser starts at its object', symbol.token)
            return spec, [name, ' = ', base_text(symbol.bases[0])], []
        return spec, [name, ' = ', self.pointer_text(initial, context)], []

    def behind_moving(self, text):
        """The number of the object of a moving pointer without an initialiser."""
        return text

    def cells_declarator(self, symbol, initial, context):
        """A variable that stands in an array of numbers."""
        cells = symbol.cells
        spec = SPACE_WORDS[symbol.space] + cells.name
        text = [in_source(symbol.token, symbol.out), '[%d]' % cells.count(symbol.type)]
        if initial is None:
            return spec, text, []
        if initial.kind == 'literal' and initial.type == symbol.type:
            initial = initial.list
        if isinstance(symbol.type, Struct) and initial.kind != 'list':
            place = self.address_of_symbol(symbol)
            return spec, text, [self.copied(place, self.struct_place(initial, context, True)), ';']
        if isinstance(element(symbol.type), Vector) and symbol.unit is None:
            return spec, text, self.cells_of_vectors(symbol, initial)
        values = numbers_of(symbol.type, initial)
        if cells.size == 0 or all(types.SIZES[leaf.name] == cells.size for leaf, _ in types.leaves(symbol.type)):
            return spec, [text, ' = ', self.cells_list(symbol, values, context)], []
        place = self.address_of_symbol(symbol)
        stores = []
        for number, (leaf, at) in enumerate(types.leaves(symbol.type)):
            if number in values:
                target = Target(None, place.at(Index(at // cells.size), leaf))
                value = context.keep(self.leaf(values[number], leaf, context), leaf)
                stores.append([target.store('=', value, False), '; '])
        return spec, text, stores

    def cells_of_vectors(self, symbol, initial):
        """A boxed vector, or an array of vectors of several dimensions, is set behind its declaration."""
        inner = self.context()
        if isinstance(symbol.type, Vector) and initial.kind != 'list':
            text = [symbol.out, '[0] = ', self.vector_start(symbol.type, initial, inner), ';']
            return self.whole(inner, text, symbol.token)
        values = numbers_of(symbol.type, initial)
        kind, found = element(symbol.type), []
        for number in range(symbol.cells.count(symbol.type)):
            own = [values.get(number * kind.count + at) for at in range(kind.count)]
            if any(each is not None for each in own):
                parts = [self.leaf(each, Scalar(kind.base), inner) for each in own]
                found.append([symbol.out, '[%d] = ' % number, self.listed(kind, parts), '; '])
        return self.whole(inner, found, symbol.token)

    def cells_list(self, symbol, values, context):
        """The list of the numbers of a structure, of an array of them, or of one number."""
        by_place = {}
        for number, (leaf, at) in enumerate(types.leaves(symbol.type)):
            if number in values:
                place = at // symbol.cells.size if symbol.cells.size else number
                text = self.leaf(values[number], leaf, context)
                by_place[place] = text if leaf.name == symbol.cells.name else ['(%s)(' % leaf.name, text, ')']
        items = []
        for place in range(max(by_place, default=0) + 1):
            items += [', '] if items else []
            items.append(by_place.get(place, '0'))
        return ['{ ', items, ' }']

    def address_of_symbol(self, symbol):
        """The place of a variable that stands in an array of numbers."""
        return Address([symbol.out], None, Index(), symbol.cells, symbol.type, symbol.space)

    def table(self, symbol, initial):
        """A table outside functions."""
        context = self.context()
        kind = symbol.type
        if isinstance(kind, Pointer):
            inner = stripped(initial) if initial is not None else None
            while inner is not None and inner.kind == 'cast':
                inner = stripped(inner.operand)
            if inner is None or inner.kind != 'string':
                raise Refused(symbol.token, 'a pointer outside functions')
            self.notes.add('a pointer to a string is a table', symbol.token)
            return ['__constant char ', in_source(symbol.token, symbol.out), '[%d] = ' % len(inner.values),
                    self.string_list(inner), ';']
        if initial is None:
            raise Refused(symbol.token, 'a constant without a value')
        if symbol.form == CELLS:
            return self.cells_table(symbol, initial)
        spec, text, behind = self.declarator(Declared(symbol, initial), context)
        if context.steps or behind:
            raise Refused(symbol.token, 'a table of this form')
        return [spec, ' ', text, ';']

    def string_list(self, node):
        """The characters of a string."""
        return '{ %s }' % ', '.join(str(value) if value >= 0 else '(%d)' % value for value in node.values)

    def cells_table(self, symbol, initial):
        """A table of structures or vectors, as numbers."""
        cells, kind = symbol.cells, symbol.type
        values, numbers = numbers_of(kind, initial), {}
        context = self.context()
        for number, (leaf, at) in enumerate(types.leaves(kind)):
            if number not in values:
                continue
            place, count = at // cells.size, types.SIZES[leaf.name] // cells.size
            if count == 1:
                text = self.constant_leaf(values[number], leaf, context)
                numbers[place] = text if leaf.name == cells.name else ['(%s)(' % leaf.name, text, ')']
                continue
            value = self.constant_number(values[number], leaf)
            for each in range(count):
                numbers[place + each] = str((value >> (8 * cells.size * each)) & ((1 << 8 * cells.size) - 1))
        items = []
        for place in range(max(numbers, default=0) + 1):
            items += [', '] if items else []
            items.append(numbers.get(place, '0'))
        return ['__constant %s ' % cells.name, in_source(symbol.token, symbol.out), '[%d] = { ' % cells.count(kind),
                items, ' };']

    def constant_leaf(self, found, leaf, context):
        """One number of a table; a component of a vector that is written there is one of its numbers."""
        if isinstance(found, tuple) and found[1] is not None:
            node = stripped(found[0])
            if node.kind != 'vector' or any(isinstance(item.type, Vector) for item in node.items):
                raise Refused(found[0].token, 'a vector of this form in a table')
            item = node.items[0] if len(node.items) == 1 else node.items[found[1]]
            return ['(%s)(' % leaf.name, self.converted(item, leaf, context), ')']
        return self.leaf(found, leaf, context)

    def constant_number(self, found, leaf):
        """The value of one number of a table."""
        if isinstance(found, int):
            return found
        value = constants.constant(found[0]) if found[1] is None else None
        if value is None:
            raise Refused(found[0].token, 'a number of a table that is no constant')
        return constants.wrapped(value[0], leaf.name)

    def hoist(self, declarator, node):
        """A constant in a function stands outside."""
        symbol = declarator.symbol
        self.notes.add('a constant table in a function stands outside', symbol.token)
        self.hoisted.append(in_source(self.function.token, plain(self.table(symbol, declarator.initial)) + ' '))

    def table_of(self, node):
        """The name of the table that a string is."""
        name = self.names.new()
        self.notes.add('a string is a table', node.token)
        self.hoisted.append(in_source(self.function.token, '__constant char %s[%d] = %s; ' % (
            name, len(node.values), self.string_list(node))))
        return name


class Declared:
    """A variable with what it starts as."""

    def __init__(self, symbol, initial):
        self.symbol, self.initial = symbol, initial


