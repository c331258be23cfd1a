"""Expressions of numbers and pointers as `wgcc` takes them."""
from . import constants, types
from .context import Step
from .notes import Refused
from .tokens import in_source
from .tree import all_of, has_effect, is_simple, parts_of, stripped
from .types import Array, Other, Pointer, Scalar, Struct, Vector
from .typing import pointed


class Numbers:
    """Expressions whose values are numbers, and those of which no value is used."""

    def value(self, node, context):
        """The text of an expression that is a number, or a pointer to what `wgcc` has."""
        if isinstance(node.type, Other) and node.kind not in ('paren',):
            raise Refused(node.token, 'floating point')
        if isinstance(node.type, (Pointer, Array)) and node.kind != 'paren':
            return self.pointer_text(node, context)
        if isinstance(node.type, (Vector, Struct)):
            raise Refused(node.token, 'a vector or a structure stands where a number is expected')
        return getattr(self, 'value_of_' + node.kind)(node, context)

    def value_of_number(self, node, _):
        """A number as it stands, or in a spelling that `wgcc` has."""
        token = node.token
        if token.kind == 'char':
            self.notes.add('characters written as numbers', token)
        elif token.kind == 'number':
            text = token.text.lower()
            if 'll' not in text and not text.startswith('0b'):
                return token
            self.notes.add('numbers written in another way', token)
        else:
            return token
        return in_source(token, constants.text_of(node.value, node.type))

    def value_of_name(self, node, context):
        """A variable, an enumerator or a flag."""
        symbol = node.symbol
        if symbol.kind == 'enumerator':
            return in_source(node.token, constants.text_of(symbol.value, symbol.type))
        if symbol.kind == 'flag':
            return node.token
        if symbol.form == 'plain':
            return in_source(node.token, symbol.out)
        return self.load(self.place(node, context), node.token)

    def value_of_paren(self, node, context):
        """An expression in parentheses."""
        return [node.token, self.value(node.inner, context), node.end]

    def value_of_sizeof(self, node, _):
        """`sizeof` is a number."""
        self.notes.add('sizeof written as a number', node.token)
        return in_source(node.token, '%dUL' % node.value)

    def value_of_binary(self, node, context):
        """An operator with two operands."""
        op = node.op.text
        if pointed(node.left) or pointed(node.right):
            return self.compared_pointers(node, context)
        if op in ('&&', '||'):
            left = self.truth(node.left, context)
            inner = context.part()
            right = self.truth(node.right, inner)
            return [left, node.op, inner.ahead(right)]
        left, right = self.in_order([node.left, node.right], context, self.value)
        return [left, node.op, right]

    def in_order(self, nodes, context, give):
        """The texts of operands, from left to right: where a later one has steps, an earlier one that these may change
        is kept in front of them."""
        texts = []
        for number, node in enumerate(nodes):
            mark = len(context.steps)
            text = give(node, context)
            if len(context.steps) > mark:
                self.keep_earlier(nodes[:number], node, texts, context, mark)
            texts.append(text)
        return texts

    def keep_earlier(self, nodes, later, texts, context, mark):
        """Keeps the values of operands that steps of a later operand may change."""
        behind, context.steps = context.steps[mark:], context.steps[:mark]
        for number, node in enumerate(nodes):
            if is_stable(node, later):
                continue
            if types.is_number(node.type):
                texts[number] = context.keep(texts[number], node.type)
            elif isinstance(node.type, Vector):
                texts[number] = self.kept(node.type, texts[number], context)
        context.steps += behind

    def truth(self, node, context):
        """The text of an expression that is a condition."""
        if isinstance(node.type, (Pointer, Array)):
            self.notes.add('a pointer as a condition is 1', node.token)
            return '1'
        if isinstance(node.type, Other):
            found = fraction_of(node)
            return str(int(found != 0)) if found is not None else self.value(node, context)
        if isinstance(node.type, Vector):
            raise Refused(node.token, 'a vector as a condition', 'vector_condition')
        return self.value(node, context)

    def value_of_unary(self, node, context):
        """An operator with one operand."""
        op = node.op.text
        if op == '!' and isinstance(node.operand.type, (Pointer, Array)):
            self.notes.add('a pointer as a condition is 1', node.token)
            return '0'
        if op in ('++', '--'):
            return self.counted(node, context)
        if op == '*':
            return self.load(self.place(node, context), node.token, node)
        return [node.op, self.value(node.operand, context)]

    def value_of_postfix(self, node, context):
        """`++` and `--` behind an operand, whose value before is used."""
        place = self.target(node.operand, context)
        if place.native is not None:
            return [place.native, node.op]
        kind = node.operand.type
        old = context.keep(place.load(), kind)
        right = ['(%s)(' % types.spelled(kind), old, ' %s 1)' % node.op.text[0]]
        context.steps.append(Step(self.stored(place, '=', right, context, False)))
        return old

    def counted(self, node, context):
        """`++` and `--` in front of an operand."""
        place = self.target(node.operand, context)
        if place.native is not None:
            return [node.op, place.native]
        return self.stored(place, node.op.text[0] + '=', '1', context, True)

    def value_of_index(self, node, context):
        """An element."""
        return self.load(self.place(node, context), node.token, node)

    def value_of_member(self, node, context):
        """A component of a vector, or a field."""
        return self.target(node, context).load()

    def value_of_cast(self, node, context):
        """A cast to a type of numbers."""
        if isinstance(node.type, types.Void):
            self.notes.add('a cast to void left out', node.token)
            return self.effect(node.operand, context)
        return [node.token, types.spelled(node.type), ')', self.operand(node.operand, node.type, context)]

    def operand(self, node, kind, context):
        """The operand of a cast; what the text is made of is put into parentheses where it is no operand any more."""
        text = self.converted(node, kind, context)
        return text if node.kind in ('number', 'name', 'paren', 'cast', 'index', 'member', 'unary') \
            and isinstance(node.type, Scalar) else ['(', text, ')']

    def converted(self, node, kind, context):
        """The text of an expression whose value is converted to a type of numbers."""
        if not isinstance(node.type, Other):
            if isinstance(node.type, (Pointer, Array)) and types.is_number(kind):
                raise Refused(node.token, 'a pointer as a number')
            return self.value(node, context)
        found = fraction_of(node)
        if found is not None:
            self.notes.add('numbers with a point written as whole numbers', node.token)
            whole = int(found != 0) if kind == types.BOOL else int(found)
            return in_source(node.token, constants.text_of(constants.wrapped(whole, kind.name), kind))
        inner = stripped(node)
        if inner.kind == 'choose':
            return self.by_float(inner, kind, context)
        raise Refused(node.token, 'floating point')

    def by_float(self, node, kind, context):
        """A choice whose arms are converted to float and then to a type of numbers."""
        test = self.truth(node.test, context)
        arms = []
        for arm in (node.yes, node.no):
            inner = context.part()
            if isinstance(arm.type, Other):
                arms.append(self.converted(arm, kind, inner))
            elif arm.type.name == 'ulong' or types.SIZES[kind.name] > 4 or node.type.name != 'float':
                raise Refused(arm.token, 'floating point')
            else:
                self.needs_float = True
                arms.append(inner.ahead(['(', kind.name, ')port_by_float((long)(', self.value(arm, inner), '))']))
        self.notes.add('a whole number that becomes a float is rounded as that', node.token)
        return ['(', test, ' ? ', arms[0], ' : ', arms[1], ')']

    def value_of_choose(self, node, context):
        """`?:` of numbers."""
        test = self.truth(node.test, context)
        arms = []
        for arm in (node.yes, node.no):
            inner = context.part()
            text = self.value(arm, inner)
            if isinstance(node.type, types.Void):
                text = ['(', text or '0', ', 0)'] if inner.steps else text or '0'
            arms.append(inner.ahead(text))
        return [test, node.mark, arms[0], node.colon, arms[1]]

    def value_of_comma(self, node, context):
        """The operator `,`."""
        left = self.effect(node.left, context)
        mark = len(context.steps)
        right = self.value(node.right, context)
        if len(context.steps) > mark:
            if left:
                context.steps.insert(mark, Step(left))
            return right
        return [left, node.op, right] if left else right

    def value_of_assign(self, node, context, is_used=True):
        """An assignment of a number."""
        place = self.target(node.left, context, is_twice=node.op.text != '=')
        mark = len(context.steps)
        right = self.converted(node.right, node.left.type, context)
        if len(context.steps) > mark and place.uses is not None:
            self.keep_place(place, node, context, mark)
        if place.native is not None:
            return [place.native, node.op, right]
        if place.is_chosen() and not is_simple(node.right):
            right = context.keep(right, node.right.type if types.is_number(node.right.type) else node.left.type)
        return self.stored(place, node.op.text, right, context, is_used)

    def stored(self, place, op, right, context, is_used):
        """A number stored in an array of numbers. One that takes several elements is worked out before the first of
        them is stored."""
        if place.is_whole():
            text = place.store(op, right, is_used)
            return ['(', text, ')'] if is_used else text
        kind = place.address.kind
        value = right if op == '=' else [place.load(), ' %s (' % op[:-1], right, ')']
        name = context.keep(value, kind)
        text = place.store('=', name, False)
        if not is_used:
            return text
        context.steps.append(Step(text))
        return name

    def keep_place(self, place, node, context, mark):
        """Keeps the index of a target in front of the steps of the right side, where these may change it."""
        if all(is_stable(part, node.right) for part in parts_of(stripped(node.left))):
            return
        behind, context.steps = context.steps[mark:], context.steps[:mark]
        place.settle(self, context, node.left, node.right)
        context.steps += behind

    def value_of_call(self, node, context):
        """A call."""
        return self.call(node, context)

    def effect(self, node, context, is_statement=False):
        """The text of an expression whose value is not used; it may be none, where its steps do all."""
        inner = stripped(node)
        kind = inner.type
        if inner.kind == 'comma' and (is_statement or isinstance(kind, (Vector, Struct))):
            left = self.effect(inner.left, context)
            if left:
                context.steps.append(Step(left))
            return self.effect(inner.right, context)
        if inner.kind == 'assign':
            if isinstance(kind, Vector):
                return self.assign_vector(inner, context, is_statement)
            if isinstance(kind, Struct):
                return self.assign_struct(inner, context)
            if isinstance(kind, Pointer):
                return self.assign_pointer(inner, context)
            if isinstance(kind, Other):
                return self.event(inner, context)
            return self.value_of_assign(inner, context, False)
        if inner.kind in ('postfix', 'unary') and inner.op.text in ('++', '--'):
            return self.count_unused(inner, context)
        if inner.kind == 'cast' and isinstance(kind, types.Void):
            self.notes.add('a cast to void left out', inner.token)
            return self.effect(inner.operand, context)
        if isinstance(kind, (Vector, Struct)) or not has_effect(inner) and isinstance(kind, (Pointer, Array)):
            return self.unused(inner, context)
        if isinstance(kind, Other):
            return self.event(inner, context)
        return self.value(node, context)

    def count_unused(self, node, context):
        """`++` and `--` whose value is not used."""
        kind = node.operand.type
        if isinstance(kind, Pointer):
            return self.step_pointer(node, context)
        if isinstance(kind, Vector):
            raise Refused(node.op, '%s of a vector' % node.op)
        place = self.target(node.operand, context, is_twice=True)
        if place.native is not None:
            return [place.native, node.op] if node.kind == 'postfix' else [node.op, place.native]
        return self.stored(place, node.op.text[0] + '=', '1', context, False)

    def unused(self, node, context):
        """A vector, a structure or a pointer whose value is not used."""
        if not has_effect(node):
            return []
        if isinstance(node.type, Vector):
            self.split(node, context)
            return []
        if isinstance(node.type, Struct):
            self.struct_place(node, context)
            return []
        raise Refused(node.token, 'a pointer that is not used')


def is_stable(node, later):
    """Whether the evaluation of a later expression leaves the value of an earlier one as it is."""
    changed, has_call = set(), False
    for each in all_of(later):
        if each.kind == 'assign':
            changed.add(getattr(stripped(each.left), 'symbol', None))
        elif each.kind in ('postfix', 'unary') and each.op.text in ('++', '--'):
            changed.add(getattr(stripped(each.operand), 'symbol', None))
        has_call = has_call or each.kind == 'call' and has_effect(each)
    for each in all_of(node):
        if each.kind == 'name' and each.symbol.kind == 'variable':
            if each.symbol in changed or each.symbol.form == 'cells':
                return False
        elif each.kind in ('index', 'member') or each.kind == 'unary' and each.op.text == '*':
            if has_call or None in changed:
                return False
        elif each.kind in ('assign', 'postfix') or each.kind == 'call' and has_effect(each):
            return False
        elif each.kind == 'unary' and each.op.text in ('++', '--'):
            return False
    return True


def fraction_of(node):
    """The value of an expression of constants with points, or None."""
    node = stripped(node)
    if node.kind == 'number':
        return node.value
    if node.kind == 'unary' and node.op.text in '+-':
        inner = fraction_of(node.operand)
        return None if inner is None else -inner if node.op.text == '-' else inner
    if node.kind == 'cast' and isinstance(node.type, Other):
        return fraction_of(node.operand)
    return None
