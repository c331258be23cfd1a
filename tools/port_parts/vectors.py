"""Vectors: as `wgcc` takes them, or component by component."""
from . import types
from .context import Step
from .lower import is_stable
from .notes import Refused
from .places import component_of
from .tree import is_simple, parts_of, stripped
from .types import Scalar, Vector
from .typing import COMPARISONS

NATIVE_CALLS = ('abs', 'abs_diff', 'min', 'max', 'clamp', 'add_sat', 'sub_sat', 'hadd', 'rhadd', 'mul_hi', 'rotate',
                'clz', 'popcount')


class Vectors:
    """The part of the lowering that writes vectors. A vector is *split* into the texts of its components, which change
    nothing and may be written several times each."""

    def vector(self, node, context):
        """The text of a vector: as it is written where `wgcc` takes it so, else a list of its components."""
        mark = len(context.steps)
        text = self.as_written(node, context)
        if text is None:
            del context.steps[mark:]
            return self.listed(node.type, self.split(node, context))
        return text

    def listed(self, kind, parts):
        """The vector with these components; a variable that has just these is named."""
        first = parts[0].rsplit('.', 1)[0] if isinstance(parts[0], str) else None
        if self.made.get(first) == kind and parts == ['%s.s%x' % (first, number) for number in range(kind.count)]:
            return first
        texts = []
        for part in parts + ['0'] * (types.stored(kind.count) - kind.count):
            texts += [', ', part] if texts else [part]
        return ['(%s)(' % types.spelled(kind), texts, ')']

    def as_written(self, node, context):
        """The text of a vector whose outermost form `wgcc` has, or None."""
        kind = node.kind
        if kind == 'paren':
            inner = self.as_written(node.inner, context)
            return None if inner is None else [node.token, inner, node.end]
        if kind in ('name', 'index', 'member') or kind == 'unary' and node.op.text == '*':
            return self.native(node, context) if self.is_native_place(node) else None
        if kind == 'cast':
            return self.filled(node.operand, node.type, node.token, context)
        if kind == 'vector':
            return self.list_as_written(node, context)
        if kind == 'unary' and node.op.text in '-+~':
            return [node.op, self.vector(node.operand, context)]
        if kind == 'binary' and node.op.text not in ('&&', '||'):
            return self.operator_as_written(node, context)
        if kind == 'call' and node.symbol is None and node.name in NATIVE_CALLS:
            texts = self.all_as_written(node.arguments, context, lambda each, here: self.filled(
                each, argument_type(node), each.token, here))
            return None if texts is None else [node.token, '(', texts, ')']
        return None

    def is_native_place(self, node):
        """Whether `wgcc` takes a vector that is a place, or a selection of one, as it is written."""
        inner = stripped(node)
        if inner.kind != 'member':
            return self.is_native(inner)
        return inner.chosen is not None and self.is_native(inner) and len(inner.chosen) in (2, 4, 8, 16) \
            and inner.base.type.count != 3 and stripped(inner.base).kind != 'member'

    def filled(self, node, kind, token, context):
        """A vector, or a number that fills all components."""
        if isinstance(node.type, Vector):
            return self.vector(node, context) if node.type == kind else None
        self.notes.add('a number that is cast to a vector, or stands beside one, fills all components', token)
        return ['(%s)(' % types.spelled(kind), self.converted(node, Scalar(kind.base), context), ')']

    def list_as_written(self, node, context):
        """A list of numbers and vectors of the type of the components."""
        if node.type.count == 3 or any(isinstance(item.type, Vector) and (item.type.base != node.type.base
                                                                           or item.type.count == 3)
                                       for item in node.items):
            return None
        texts = self.all_as_written(node.items, context, lambda each, here: self.vector(each, here)
                                    if isinstance(each.type, Vector)
                                    else self.converted(each, Scalar(node.type.base), here))
        return None if texts is None else [node.token, types.spelled(node.type), ')(', texts, ')']

    def operator_as_written(self, node, context):
        """An operator of two vectors of one type, or of a vector and a number."""
        sides = node.left, node.right
        vectors = [side for side in sides if isinstance(side.type, Vector)]
        if len({side.type for side in vectors}) > 1:
            return None
        texts = self.all_as_written(sides, context, lambda each, here: self.vector(each, here)
                                    if isinstance(each.type, Vector)
                                    else self.converted(each, Scalar(vectors[0].type.base), here), node.op)
        return texts

    def all_as_written(self, nodes, context, give, mark=', '):
        """The texts of operands with a mark between them; None where a later one has steps that may change an
        earlier one."""
        texts = []
        for number, node in enumerate(nodes):
            before = len(context.steps)
            text = give(node, context)
            if text is None or len(context.steps) > before and not all(is_stable(each, node)
                                                                       for each in nodes[:number]):
                return None
            texts += [mark, text] if texts else [text]
        return texts

    def split(self, node, context):
        """The texts of the components of a vector."""
        inner = stripped(node)
        if inner.kind == 'unary' and inner.op.text == '*':
            return self.split_index(inner, context)
        return getattr(self, 'split_' + inner.kind, self.no_vector)(inner, context)

    def no_vector(self, node, _):
        """A form that is no vector here."""
        raise Refused(node.token, 'a vector of this form')

    def part(self, node, number, context):
        """One component of a vector that is no place."""
        return self.split(node, context)[number]

    def split_name(self, node, context):
        """A variable."""
        if node.symbol.form == 'plain':
            return [[node.symbol.out, '.s%x' % number] for number in range(node.type.count)]
        return self.split_place(node, context)

    def split_place(self, node, context):
        """A place in memory."""
        found = self.address(node, context, True)
        return [component_of(found, number).load() for number in range(node.type.count)]

    def split_index(self, node, context):
        """An element, which is loaded once into a variable."""
        found = self.address(node, context, True)
        parts = [component_of(found, number).load() for number in range(node.type.count)]
        if found.cells.name != types.spelled(node.type):
            return parts
        whole = found.chosen(found.element) if found.which is None else None
        return self.kept(node.type, parts, context, whole)

    def kept(self, kind, parts, context, whole=None):
        """Keeps components in a new variable; its components."""
        name = context.variable(kind)
        self.made[name] = kind
        expression = []
        for number, part in enumerate(parts):
            expression += [', '] if expression else []
            expression += ['%s.s%x = ' % (name, number), part]
        context.steps.append(Step(expression, [name, ' = ', whole or self.listed(kind, parts), ';']))
        return ['%s.s%x' % (name, number) for number in range(kind.count)]

    def split_member(self, node, context):
        """A selection, or a field that is a vector."""
        if node.chosen is None:
            return self.split_place(node, context)
        if node.is_arrow:
            found = self.pointer(node.base, context, True)
            return [component_of(found, number).load() for number in node.chosen]
        parts = self.split(node.base, context)
        return [parts[number] for number in node.chosen]

    def split_vector(self, node, context):
        """A list: one number fills all components, else they are those of the items in order."""
        base = node.type.base
        if len(node.items) == 1 and not isinstance(node.items[0].type, Vector):
            return [self.once(node.items[0], Scalar(base), context)] * node.type.count
        parts = []
        for item in node.items:
            if isinstance(item.type, Vector):
                more = self.split(item, context)
                parts += more if item.type.base == base else [cast_to(base, part) for part in more]
            else:
                parts.append(self.once(item, Scalar(base), context))
        return parts

    def once(self, node, kind, context):
        """A number that is converted to a type, which may be written several times."""
        text = self.converted(node, kind, context)
        if is_simple(node):
            return text if node.type == kind and stripped(node).kind in ('number', 'name') else cast_to(kind.name, text)
        return context.keep(text, kind)

    def split_cast(self, node, context):
        """`(int4)x` of a number fills all components; of a vector of the type it changes nothing."""
        if isinstance(node.operand.type, Vector):
            if node.operand.type != node.type:
                raise Refused(node.token, 'a cast among types of vectors', 'vector_conversion')
            return self.split(node.operand, context)
        self.notes.add('a number that is cast to a vector fills all components', node.token)
        return [self.once(node.operand, Scalar(node.type.base), context)] * node.type.count

    def split_unary(self, node, context):
        """An operator with one operand."""
        op = node.op.text
        if op not in ('-', '+', '~', '!'):
            return self.no_vector(node, context)
        parts, base = self.split(node.operand, context), node.operand.type.base
        if op == '!':
            return [['(%s)(' % node.type.base, part, ' == 0 ? -1 : 0)'] for part in parts]
        return [['(%s)(%s(' % (base, op), part, '))'] for part in parts]

    def split_binary(self, node, context):
        """An operator with two operands, of which at least one is a vector."""
        kind = node.left.type if isinstance(node.left.type, Vector) else node.right.type
        left, right = self.in_order([node.left, node.right], context, lambda side, here: self.operand_parts(
            side, kind, here))
        op = node.op.text
        return [operated(op, one, two, kind.base, node.type.base) for one, two in zip(left, right)]

    def operand_parts(self, node, kind, context):
        """The components of an operand; a number is one for all."""
        if isinstance(node.type, Vector):
            return self.split(node, context)
        return [self.once(node, Scalar(kind.base), context)] * kind.count

    def split_choose(self, node, context):
        """`?:`: of a vector it chooses for each component, of a number between two vectors."""
        if isinstance(node.test.type, Vector):
            test, yes, no = (self.operand_parts(each, node.type, context) for each in (node.test, node.yes, node.no))
            self.notes.add('a choice by a vector for each component', node.mark)
            return [['(%s)((' % node.type.base, t, ') < 0 ? ', y, ' : ', n, ')'] for t, y, n in zip(test, yes, no)]
        name = context.variable(node.type)
        test, texts = self.truth(node.test, context), []
        statements = []
        for arm in (node.yes, node.no):
            inner = context.part()
            parts = self.operand_parts(arm, node.type, inner)
            text = []
            for number, part in enumerate(parts):
                text += [', '] if text else []
                text += ['%s.s%x = ' % (name, number), part]
            statements.append(['{ ', [[step.statement, ' '] for step in inner.steps], name, ' = ',
                               self.listed(node.type, parts), '; }'])
            texts.append(inner.ahead(['(', text, ')']))
        context.steps.append(Step(['(', test, ' ? ', texts[0], ' : ', texts[1], ')'],
                                  ['if (', test, ') ', statements[0], ' else ', statements[1]]))
        self.notes.add('a choice between vectors is made first', node.mark)
        return ['%s.s%x' % (name, number) for number in range(node.type.count)]

    def split_comma(self, node, context):
        """The operator `,`."""
        left = self.effect(node.left, context)
        if left:
            context.steps.append(Step(left))
        return self.split(node.right, context)

    def split_assign(self, node, context):
        """An assignment whose value is used."""
        self.notes.add('an assignment of a vector inside an expression is made first', node.op)
        self.assign_steps(node, context)
        return self.split(node.left, context)

    def split_call(self, node, context):
        """A call."""
        return self.call_vector(node, context)

    def assign_vector(self, node, context, is_statement):
        """An assignment of a vector whose value is not used; its text, or none where steps do it."""
        target = stripped(node.left)
        if is_statement and self.is_native_target(target):
            mark = len(context.steps)
            left = self.native(target, context)
            if len(context.steps) == mark:
                right = self.right_side(node, context)
                if len(context.steps) == mark or all(is_stable(part, node.right) for part in parts_of(target)):
                    return [left, node.op, right]
            del context.steps[mark:]
        self.assign_steps(node, context)
        return []

    def is_native_target(self, target):
        """Whether `wgcc` takes a vector as the target of an assignment."""
        if target.kind == 'member' and (target.chosen is None or len(target.chosen) == 3
                                        or target.base.type.count == 3):
            return False
        if target.type.count == 3 and target.kind != 'name':
            return False
        return self.is_native(target)

    def right_side(self, node, context):
        """The right side of an assignment: a vector, or for a compound assignment a number too."""
        kind = node.left.type
        if isinstance(node.right.type, Vector):
            if node.right.type != kind:
                raise Refused(node.op, 'an assignment of another type of vectors', 'vector_conversion')
            return self.vector(node.right, context)
        if node.op.text != '=' and types.is_number(node.right.type):
            return self.value(node.right, context)
        self.notes.add('a number that is assigned to a vector fills all components', node.op)
        return ['(%s)(' % types.spelled(kind), self.converted(node.right, Scalar(kind.base), context), ')']

    def assign_steps(self, node, context):
        """An assignment as steps: the components of the right side first, and then each component of the target."""
        target, kind, op = stripped(node.left), node.left.type, node.op.text
        places = self.places_of(target, context)
        right = self.operand_parts(node.right, kind, context)
        if op != '=':
            old = [place.load() for place in places]
            right = [operated(op[:-1], one, two, kind.base, kind.base) for one, two in zip(old, right)]
        if not all(is_kept(part) for part in right):
            right = self.kept(kind, right, context)
        texts = []
        for place, part in zip(places, right):
            texts += [', '] if texts else []
            texts.append(place.store('=', part, False) if place.native is None else [place.native, ' = ', part])
        context.steps.append(Step(texts))

    def places_of(self, target, context):
        """The places of the components of a target."""
        if target.kind == 'name' and target.symbol.form == 'plain':
            return [NamedPart('%s.s%x' % (target.symbol.out, number)) for number in range(target.type.count)]
        if target.kind == 'member' and target.chosen is not None:
            if target.is_arrow:
                found = self.pointer(target.base, context, True)
                return [component_of(found, number) for number in target.chosen]
            below = self.places_of(stripped(target.base), context)
            return [below[number] for number in target.chosen]
        found = self.address(target, context, True)
        return [component_of(found, number) for number in range(target.type.count)]


def argument_type(node):
    """The type of the vectors that a built-in function has as arguments."""
    return next(each.type for each in node.arguments if isinstance(each.type, Vector))


class NamedPart:
    """A component of a variable."""

    def __init__(self, native):
        self.native = native

    def load(self):
        """Its text."""
        return self.native


def is_kept(part):
    """Whether a text is a component of a variable that was made."""
    return isinstance(part, str) and part.startswith('port_')


def cast_to(base, text):
    """A number in a type."""
    return ['(%s)(' % base, text, ')']


def operated(op, left, right, base, result):
    """One component of an operator of vectors: it is computed in the type of the components, and wraps there."""
    if op in COMPARISONS:
        return ['(%s)(' % result, left, ' %s ' % op, right, ' ? -1 : 0)']
    if op in ('&&', '||'):
        return ['(%s)(' % result, left, ' != 0 %s ' % op, right, ' != 0 ? -1 : 0)']
    if op in ('<<', '>>') and types.SIZES[base] < 4:
        right = ['(', right, ' & %d)' % (8 * types.SIZES[base] - 1)]
    text = [left, ' %s ' % op, right, ')']
    return ['(%s)(' % base if types.SIZES[base] < 4 else '(', text]
