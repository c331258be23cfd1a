"""Places in memory: elements, what pointers lead to, fields of structures, and components of vectors."""
from . import types
from .cells import Address, Cells, Index
from .constants import constant
from .context import Step
from .forms import dimensions
from .notes import Refused
from .pointers import is_null, names_of_moving
from .tokens import in_source
from .tree import is_simple, parts_of, stripped
from .types import Array, Pointer, Scalar, Struct, element
from .typing import pointed


class Target:
    """A place of a number: as `wgcc` has it, or in an array of numbers."""

    def __init__(self, native, address=None, suffix=''):
        self.native, self.address, self.suffix = native, address, suffix
        self.uses = None if native is not None and address is None else address

    def is_same(self):
        """Whether the elements of the array have the type of the place."""
        return bool(self.suffix) or self.address.cells.name == types.spelled(self.address.kind)

    def is_chosen(self):
        """Whether it is in one of several arrays, or takes several elements, so that what is stored stands there more
        than once."""
        return self.address.which is not None or not self.is_same() and not is_one(self.address)

    def is_whole(self):
        """Whether it takes one element."""
        return self.is_same() or is_one(self.address)

    def load(self):
        """The text of its value."""
        if self.native is not None:
            return self.native
        if self.is_same():
            return self.address.chosen(lambda base: [self.address.element(base), self.suffix])
        return load_of(self.address)

    def store(self, op, right, is_used=True):
        """The text of an assignment; where that is used its value is what was stored."""
        address = self.address
        if self.is_same():
            if address.which is None:
                return [address.element(address.bases[0]), self.suffix, ' %s ' % op, right]
            return address.chosen(lambda base: ['(', address.element(base), self.suffix, ' %s ' % op, right, ')'])
        name = address.kind.name
        if op != '=':
            right = ['(', load_of(address), ') %s (' % op[:-1], right, ')']
        right = ['(%s)(' % name, right, ')']
        if is_one(address) and not is_used and address.which is None:
            return [address.element(address.bases[0]), ' = ', right]
        if is_one(address):
            return ['(%s)(' % name, address.chosen(lambda base: ['(', address.element(base), ' = ', right, ')']), ')']
        return self.pieces(right, name)

    def pieces(self, right, name):
        """The stores of a number that takes several elements; the right side is written once for each."""
        address = self.address
        size = address.cells.size
        wide = 'ulong' if types.SIZES[name] == 8 else 'uint'
        found = []
        for number in range(types.SIZES[name] // size):
            found += [', '] if found else []
            found += [address.element(address.bases[0], number), ' = (%s)((%s)(' % (address.cells.name, wide), right,
                      ') >> %d)' % (8 * size * number)]
        return found

    def settle(self, lowering, context, node, _):
        """Keeps the index in front of what comes."""
        address = lowering.address(node, context, True)
        self.address = Address(address.bases, address.which, Index(address.index.number, [
            (text if is_name(text) else context.keep(text, types.LONG), factor)
            for text, factor in address.index.terms]), address.cells, address.kind, address.space)
        if self.native is not None and not self.suffix:
            self.native = self.address.element(self.address.bases[0])


def is_name(text):
    """Whether a text is a name that was made."""
    return isinstance(text, str) and text.startswith('port_')


def is_one(address):
    """Whether a number takes one element."""
    return address.cells.size in (0, types.SIZES[address.kind.name])


def load_of(address):
    """The value of a number in an array of another type."""
    name = address.kind.name
    if is_one(address):
        return ['((%s)' % name, address.chosen(address.element), ')']
    size = address.cells.size
    wide = 'ulong' if types.SIZES[name] == 8 else 'uint'
    found = ['((%s)(' % name]
    for number in range(types.SIZES[name] // size):
        found += [' | '] if number else []
        found += ['(%s)(%s)' % (wide, types.BY_SIZE[size]),
                  address.chosen(lambda base, at=number: address.element(base, at)),
                  ' << %d' % (8 * size * number) if number else '']
    return found + ['))']


class Places:
    """The part of the lowering that finds places."""

    def is_native(self, node):
        """Whether `wgcc` takes a place, or a pointer, as it is written."""
        node = stripped(node)
        if node.kind == 'name':
            return node.symbol.kind == 'variable' and node.symbol.form == 'plain'
        if node.kind == 'index':
            return self.is_native(node.base)
        if node.kind == 'member':
            return node.chosen is not None and not node.is_arrow and self.is_native(node.base)
        if node.kind == 'unary' and node.op.text == '&':
            return stripped(node.operand).kind == 'index' and self.is_native(node.operand)
        if node.kind in ('unary', 'postfix'):
            return self.is_native(node.operand)
        if node.kind == 'binary' and node.op.text in ('+', '-'):
            side = node.left if pointed(node.left) else node.right
            return pointed(side) is not None and not (pointed(node.left) and pointed(node.right)) \
                and self.is_native(side)
        return False

    def native(self, node, context):
        """The text of what `wgcc` takes as it is written."""
        if node.kind == 'name':
            return in_source(node.token, node.symbol.out)
        if node.kind == 'paren':
            return [node.token, self.native(node.inner, context), node.end]
        if node.kind == 'index':
            base, at = self.in_order([node.base, node.at], context, self.native_part)
            return [base, node.start, at, node.end]
        if node.kind == 'member':
            return [self.native(node.base, context), node.point, node.name]
        if node.kind == 'unary':
            return [node.op, self.native(node.operand, context)]
        if node.kind == 'postfix':
            return [self.native(node.operand, context), node.op]
        left, right = self.in_order([node.left, node.right], context, self.native_part)
        return [left, node.op, right]

    def native_part(self, node, context):
        """An operand of an expression of pointers: the pointer or the number."""
        return self.native(node, context) if pointed(node) else self.value(node, context)

    def pointer_text(self, node, context):
        """A pointer as a value, to what `wgcc` has or to the numbers of a structure."""
        if self.is_native(node):
            return self.native(node, context)
        return self.pointer(node, context).pointer(node.token)

    def target(self, node, context, is_twice=False):
        """The place of a number; where it is to be written twice its index changes nothing."""
        inner = stripped(node)
        if inner.kind == 'member' and inner.chosen is not None:
            return self.component(inner, context, is_twice)
        if self.is_native(node):
            address = None if inner.kind == 'name' else Index()
            return Target(self.native(node, context), address)
        if inner.kind not in ('name', 'index', 'member', 'unary'):
            raise Refused(node.token, 'a place that is none')
        found = self.address(node, context, is_twice or takes_several(inner))
        if is_narrow(found):
            raise Refused(node.token, 'a part of an element', 'pointer_cast')
        return Target(None, found)

    def component(self, node, context, is_twice):
        """The place of one component of a vector."""
        if node.is_arrow or not self.is_native(node.base):
            inner = stripped(node.base)
            if node.is_arrow or inner.kind in ('name', 'index', 'unary') \
                    or inner.kind == 'member' and inner.chosen is None:
                found = self.pointer(node.base, context, is_twice) if node.is_arrow \
                    else self.address(node.base, context, is_twice)
                return component_of(found, node.chosen[0])
            if inner.kind == 'member':
                return self.component_again(node, inner, context, is_twice)
            return Target(['(', self.part(node.base, node.chosen[0], context), ')'])
        inner = stripped(node.base)
        if inner.kind == 'member':
            return self.component_again(node, inner, context, is_twice)
        return Target([self.native(node.base, context), node.point, node.name],
                      None if inner.kind == 'name' else Index())

    def component_again(self, node, inner, context, is_twice):
        """A component of a selection is a component of the vector itself."""
        number, is_arrow = node.chosen[0], False
        while not is_arrow and inner.kind == 'member' and inner.chosen is not None:
            number, is_arrow, inner = inner.chosen[number], inner.is_arrow, stripped(inner.base)
        if is_arrow:
            return component_of(self.pointer(inner, context, is_twice), number)
        if self.is_native(inner):
            return Target([self.native(inner, context), '.s%x' % number], Index())
        if inner.kind in ('name', 'index', 'unary', 'member'):
            return component_of(self.address(inner, context, is_twice), number)
        return Target(['(', self.part(node.base, node.chosen[0], context), ')'])

    def load(self, place, token, node=None):
        """The value of a place; `node` is given where `wgcc` may take it as it is written."""
        return place.load()

    def place(self, node, context):
        """The place of a number that is only read."""
        return self.target(node, context)

    def address(self, node, context, is_twice=False):
        """The place of an object as an array and an index."""
        node = stripped(node)
        if node.kind == 'name':
            symbol = node.symbol
            if isinstance(symbol.type, Pointer):
                raise Refused(node.token, 'the address of a pointer')
            cells = symbol.cells or native_cells(symbol.type)
            depth = dimensions(symbol.type) if symbol.form == 'plain' else 1
            base = in_source(node.token, symbol.out + '[0]' * (depth - 1))
            return Address([base], None, Index(), cells, symbol.type, symbol.space)
        if node.kind == 'index':
            found = self.pointer(node.base, context, is_twice)
            return found.at(self.number(node.at, context, is_twice).times(found.cells.count(node.type)), node.type)
        if node.kind == 'member':
            if node.chosen is not None:
                raise Refused(node.token, 'the address of a component')
            found = self.pointer(node.base, context, is_twice) if node.is_arrow \
                else self.struct_place(node.base, context, is_twice)
            return found.at(Index(found.cells.before(found.kind, node.offset)), node.type)
        if node.kind == 'unary' and node.op.text == '*':
            return self.pointer(node.operand, context, is_twice)
        if node.kind == 'literal':
            return self.literal_place(node, context)
        raise Refused(node.token, 'a place that is none')

    def number(self, node, context, is_twice):
        """An expression as a number of elements."""
        found = constant(node)
        if found is not None:
            return Index(found[0])
        text = self.value(node, context)
        if is_twice and not is_simple(node):
            text = context.keep(text, types.promoted(node.type))
        return Index(0, [(text, 1)])

    def pointer(self, node, context, is_twice=False):
        """What a pointer leads to."""
        node = stripped(node)
        if isinstance(node.type, Array) and node.kind != 'string':
            found = self.address(node, context, is_twice)
            return found.at(Index(), node.type.of)
        return getattr(self, 'pointer_of_' + node.kind, self.no_pointer)(node, context, is_twice)

    def no_pointer(self, node, *_):
        """A form that is no pointer here."""
        raise Refused(node.token, 'a pointer of this form')

    def pointer_of_name(self, node, *_):
        """A pointer variable."""
        symbol, kind = node.symbol, node.type
        if symbol.form != 'moving':
            return Address([in_source(node.token, symbol.out)], None, Index(), symbol.cells, kind.to, kind.space)
        which, at = names_of_moving(symbol)
        return Address([base_text(base) for base in symbol.bases], which if len(symbol.bases) > 1 else None,
                       Index(0, [(at, 1)]), symbol.cells, kind.to, kind.space)

    def pointer_of_string(self, node, *_):
        """A string is a table outside functions."""
        return Address([self.table_of(node)], None, Index(), Cells('char', 1), Scalar('char'), 'constant')

    def pointer_of_unary(self, node, context, is_twice):
        """`&` of a place, and a pointer that is moved first."""
        if node.op.text == '&':
            found = self.address(node.operand, context, is_twice)
            return found.at(Index(), node.operand.type)
        if node.op.text in ('++', '--'):
            context.steps.append(Step(self.step_pointer(node, context)))
            return self.pointer(node.operand, context, is_twice)
        return self.no_pointer(node)

    def pointer_of_postfix(self, node, context, is_twice):
        """A pointer that is moved behind."""
        context.steps.append(Step(self.step_pointer(node, context)))
        found = self.pointer(node.operand, context, is_twice)
        back = -found.cells.count(found.kind) if node.op.text == '++' else found.cells.count(found.kind)
        return found.at(Index(back), found.kind)

    def pointer_of_binary(self, node, context, is_twice):
        """A pointer and a number."""
        side, other = (node.left, node.right) if pointed(node.left) else (node.right, node.left)
        found = self.pointer(side, context, is_twice)
        number = self.number(other, context, is_twice).times(found.cells.count(found.kind))
        return found.at(number.times(-1) if node.op.text == '-' else number, found.kind)

    def pointer_of_cast(self, node, context, is_twice):
        """A pointer to the same bytes as another type."""
        found = self.pointer(node.operand, context, is_twice)
        kind = node.type.to
        if kind == found.kind:
            return found
        size = types.size_of(kind)
        if size is None or not found.cells.size or size % found.cells.size \
                or any(types.SIZES[leaf.name] % found.cells.size for leaf, _ in types.leaves(kind)):
            raise Refused(node.token, 'a pointer to a smaller type, or to parts of elements', 'pointer_cast')
        self.notes.add('a pointer cast: elements are put together', node.token)
        return found.at(Index(), kind)

    def pointer_of_assign(self, node, context, is_twice):
        """A pointer that is set first."""
        context.steps.append(Step(self.assign_pointer(node, context)))
        return self.pointer(node.left, context, is_twice)

    def pointer_of_comma(self, node, context, is_twice):
        """A pointer behind something that is done first."""
        left = self.effect(node.left, context)
        if left:
            context.steps.append(Step(left))
        return self.pointer(node.right, context, is_twice)

    def pointer_of_choose(self, node, context, is_twice):
        """One of two pointers."""
        test = context.keep(['(', self.truth(node.test, context), ') ? 1 : 0'], types.INT)
        sides = []
        for side in (node.yes, node.no):
            inner = context.part()
            sides.append(self.pointer(side, inner, is_twice))
            if inner.steps:
                raise Refused(side.token, 'a choice among pointers that are moved')
        one, two = sides
        if one.cells.name != two.cells.name:
            raise Refused(node.token, 'a choice among pointers to different numbers')
        bases = list({str(base): base for base in one.bases + two.bases}.values())
        which = None
        if len(bases) > 1:
            which = ['(', test, ' ? ', which_of(one, bases), ' : ', which_of(two, bases), ')']
        index = Index(0, [(['(', test, ' ? ', one.index.text(), ' : ', two.index.text(), ')'], 1)])
        return Address(bases, which, index, one.cells, one.kind, one.space)

    def step_pointer(self, node, context):
        """`++` and `--` of a pointer."""
        inner = stripped(node.operand)
        if inner.kind != 'name':
            raise Refused(node.token, 'a pointer of this form that is moved')
        symbol = inner.symbol
        count, sign = symbol.cells.count(symbol.type.to), node.op.text[0]
        if symbol.form == 'plain':
            return [in_source(node.token, symbol.out), node.op]
        name = names_of_moving(symbol)[1] if symbol.form == 'moving' else symbol.out
        return ['%s %s= %d' % (name, sign, count)]

    def assign_pointer(self, node, context):
        """An assignment of a pointer variable."""
        inner = stripped(node.left)
        if inner.kind != 'name':
            raise Refused(node.token, 'a pointer of this form that is set')
        symbol, op = inner.symbol, node.op.text
        if symbol.form == 'plain' and (op != '=' or self.is_native(node.right)):
            right = self.value(node.right, context) if op != '=' else self.native(node.right, context)
            return [in_source(inner.token, symbol.out), node.op, right]
        if op != '=':
            number = self.number(node.right, context, False).times(symbol.cells.count(symbol.type.to))
            name = names_of_moving(symbol)[1] if symbol.form == 'moving' else symbol.out
            return ['%s %s ' % (name, op), number.text()]
        if is_null(node.right):
            raise Refused(node.token, 'a pointer that is set to nothing', 'pointer_tested')
        found = self.pointer(node.right, context)
        if symbol.form != 'moving':
            return [symbol.out, ' = ', found.pointer(node.token)]
        return self.set_moving(symbol, found, ' = ', ', ')

    def set_moving(self, symbol, found, sign, comma):
        """The two numbers of a moving pointer are set."""
        which, at = names_of_moving(symbol)
        number = which_of(found, [base_text(base) for base in symbol.bases])
        parts = [at, sign, '(long)(', found.index.text(), ')']
        if len(symbol.bases) > 1:
            parts = [which, sign, number, comma] + parts
        return parts

    def compared_pointers(self, node, context):
        """Two pointers that are compared or subtracted."""
        op = node.op.text
        if op in ('&&', '||'):
            left, inner = self.truth(node.left, context), context.part()
            right = self.truth(node.right, inner)
            return [left, node.op, inner.ahead(right)]
        for side, other in ((node.left, node.right), (node.right, node.left)):
            if pointed(side) is None or isinstance(side.type, Pointer) and is_null(other):
                self.notes.add('a pointer as a condition is 1', node.token)
                return '1' if op == '!=' else '0'
        left, right = self.pointer(node.left, context), self.pointer(node.right, context)
        names = [[str(base) for base in side.bases] for side in (left, right)]
        if left.which is None and right.which is None and names[0] != names[1]:
            raise Refused(node.op, 'pointers of two objects compared', 'pointers_compared')
        here, there = (['(long)(', side.index.text(), ')'] for side in (left, right))
        if op == '-':
            count = left.cells.count(left.kind)
            return ['(', here, ' - ', there, ')' + (' / %d' % count if count > 1 else '')]
        if op in ('==', '!=') and (left.which is not None or right.which is not None):
            bases = left.bases if left.which is not None else right.bases
            same = ['(', which_of(left, bases), ' == ', which_of(right, bases), ' && ', here, ' == ', there, ')']
            return same if op == '==' else ['!', same]
        return ['(', here, ' ', op, ' ', there, ')']


def takes_several(node):
    """Whether a number may take several elements of the array in which it stands, so that its index is written several
    times."""
    root = node
    while root.kind != 'name':
        below = [part for part in parts_of(root) if isinstance(part.type, (Pointer, Array, Struct))]
        if not below:
            return True
        root = stripped(below[0])
    cells = root.symbol.cells
    return cells is None or cells.size not in (0, types.SIZES[node.type.name])


def is_narrow(found):
    """Whether a number takes a part of an element."""
    return found.cells.size > types.SIZES[found.kind.name]


def native_cells(kind):
    """The elements of an array that `wgcc` has as it is written."""
    inner = element(kind)
    return Cells(types.spelled(inner), types.size_of(inner))


def component_of(found, number):
    """The place of one component of a vector that stands at a place."""
    if found.cells.name == types.spelled(found.kind):
        return Target(None, found.at(Index(), Scalar(found.kind.base)), '.s%x' % number)
    at = Index(number * found.cells.step(found.kind))
    return Target(None, found.at(at, Scalar(found.kind.base)))


def base_text(symbol):
    """The name of an object, as a pointer to its first element."""
    depth = dimensions(symbol.type) if symbol.form == 'plain' else 1
    return symbol.out + '[0]' * max(depth - 1, 0)


def which_of(found, bases):
    """The number of the object to which a pointer leads, among these."""
    names = [str(base) for base in bases]
    numbers = []
    for base in found.bases:
        if str(base) not in names:
            raise Refused(None, 'a pointer to an object that is not known')
        numbers.append(str(names.index(str(base))))
    if found.which is None:
        return numbers[0]
    if numbers == [str(number) for number in range(len(numbers))]:
        return found.which
    text = numbers[-1]
    for number in range(len(numbers) - 2, -1, -1):
        text = ['(', found.which, ' == %d ? ' % number, numbers[number], ' : ', text, ')']
    return text
