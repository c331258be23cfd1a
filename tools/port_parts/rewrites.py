"""Built-in functions that `wgcc` does not have, and those of vectors that it has not in this form."""
from . import built_in, types
from .calls import LOCAL_LINEAR
from .context import Step
from .notes import Refused
from .places import Target
from .tree import is_simple, stripped
from .types import Scalar, Vector
from .typing import pointed
from .vectors import NATIVE_CALLS, cast_to

LIMITS = {'char': ('-128', '127'), 'uchar': ('0', '255'), 'short': ('-32768', '32767'), 'ushort': ('0', '65535'),
          'int': ('INT_MIN', 'INT_MAX'), 'uint': ('0', 'UINT_MAX'), 'long': ('LONG_MIN', 'LONG_MAX'),
          'ulong': ('0', 'ULONG_MAX')}


class Rewrites:
    """The part of the lowering that writes built-in functions."""

    def rewrite_get_global_linear_id(self, *_):
        """The number of the item in the launch."""
        return ('((get_global_id(2) - get_global_offset(2)) * get_global_size(1) * get_global_size(0)'
                ' + (get_global_id(1) - get_global_offset(1)) * get_global_size(0)'
                ' + (get_global_id(0) - get_global_offset(0)))')

    def rewrite_get_local_linear_id(self, *_):
        """The number of the item in its group."""
        return '(%s)' % LOCAL_LINEAR

    def rewrite_get_enqueued_local_size(self, node, context):
        """The groups of a launch have one size."""
        return ['get_local_size(', self.value(node.arguments[0], context), ')']

    def in_type(self, node, name, context):
        """An argument in a type, as an operand."""
        text = self.converted(node, Scalar(name), context)
        if stripped(node).kind == 'number' or node.type == Scalar(name) and stripped(node).kind == 'name':
            return ['(%s)' % name, text] if node.type != Scalar(name) else text
        return ['(%s)(' % name, text, ')']

    def in_types(self, node, context):
        """The arguments of a function of numbers, in its type."""
        return self.in_order(node.arguments, context, lambda each, here: self.in_type(each, node.type.name, here))

    def rewrite_mul24(self, node, context):
        """A product; of numbers beyond 24 bits it is open."""
        one, two = self.in_types(node, context)
        return ['(', one, ' * ', two, ')']

    def rewrite_mad24(self, node, context):
        """A product and a sum."""
        one, two, three = self.in_types(node, context)
        return ['(', one, ' * ', two, ' + ', three, ')']

    def rewrite_mad_hi(self, node, context):
        """The upper half of a product, and a sum that wraps."""
        one, two, three = self.in_types(node, context)
        return ['(%s)(mul_hi(' % node.type.name, one, ', ', two, ') + ', three, ')']

    def rewrite_mad_sat(self, node, context):
        """A product and a sum, held at the ends of the type."""
        name = node.type.name
        if types.SIZES[name] > 4 or name == 'uint':
            raise Refused(node.token, 'mad_sat of %s' % name)
        one, two, three = (self.in_type(each, 'long', context) for each in node.arguments)
        return ['(%s)clamp(' % name, one, ' * ', two, ' + ', three, ', (long)(%s), (long)(%s))' % LIMITS[name]]

    def rewrite_upsample(self, node, context):
        """Two numbers joined to one of twice the width."""
        wide, name = node.type.name, node.arguments[1].type.name
        bits = 8 * types.SIZES[name]
        high, low = self.in_order(node.arguments, context, self.value)
        low = ['(%s)(%s)(' % (wide, types.BY_SIZE[types.SIZES[name]]), low, ')']
        return ['(%s)(((%s)(' % (wide, wide), high, ') << %d) | ' % bits, low, ')']

    def rewrite_bitselect(self, node, context):
        """Bits of one or the other."""
        parts = [self.once(each, node.type, context) for each in node.arguments]
        return bit_choice(node.type.name, *parts)

    def rewrite_select(self, node, context):
        """A choice; both are evaluated before."""
        name = node.type.name
        no, yes = (self.once(each, node.type, context) if self.needs_keeping(each)
                   else self.in_type(each, name, context) for each in node.arguments[:2])
        test = self.value(node.arguments[2], context)
        return ['(%s)((' % name, test, ') ? ', yes, ' : ', no, ')']

    def needs_keeping(self, node):
        """Whether an expression changes something, or may end the launch."""
        return not is_simple(node)

    def rewrite_convert(self, node, found, context):
        """`convert_T` and `as_T` of a number."""
        self.notes.add('%s written out' % node.name, node.token)
        argument, name = node.arguments[0], node.type.name
        if isinstance(argument.type, Vector):
            if found[1] != 'as':
                raise Refused(node.token, 'a vector converted to a number')
            return ['(%s)(' % name, joined(self.kept(argument.type, self.split(argument, context), context),
                                           argument.type.base, name), ')']
        if found[1] == 'as' and types.SIZES[argument.type.name] != types.SIZES[name]:
            raise Refused(node.token, '%s of a number of another size' % node.name)
        if not found[4]:
            return ['(%s)(' % name, self.converted(argument, node.type, context), ')']
        text = self.value(argument, context) if types.promoted(argument.type) != argument.type or is_simple(argument) \
            else self.value(argument, context)
        return saturated(text, argument.type.name, name)

    def rewrite_any(self, node, context):
        """Whether a component has its upper bit."""
        self.notes.add('any and all written out', node.token)
        argument, joint = node.arguments[0], ' | ' if node.name == 'any' else ' & '
        if not isinstance(argument.type, Vector):
            return ['(', upper_bit(self.value(argument, context), argument.type.name), ')']
        texts = []
        for part in self.split(argument, context):
            texts += [joint] if texts else []
            texts.append(upper_bit(part, argument.type.base))
        return ['(', texts, ')']

    rewrite_all = rewrite_any

    def rewrite_store(self, node, context):
        """`vstore`: each component is stored."""
        found = built_in.LOAD.match(node.name)
        if not found:
            raise Refused(node.token, 'there is no function %s' % node.name)
        self.notes.add('vload and vstore written out', node.token)
        value, at, to = node.arguments
        count, base = int(found[2]), pointed(to).to
        if not isinstance(value.type, Vector) or (value.type.count, value.type.base) != (count, base.name):
            raise Refused(node.token, 'a vstore of another type', 'vload')
        parts = self.split(value, context)
        place = self.vector_in_memory(at, to, count, context)
        if not all(isinstance(part, str) for part in parts):
            parts = self.kept(value.type, parts, context)
        texts = []
        for number, part in enumerate(parts):
            texts += [', '] if texts else []
            texts.append(self.stored_at(place, number, base, part))
        context.steps.append(Step(texts))
        return []

    def stored_at(self, place, number, base, part):
        """A component stored in memory."""
        return Target(None, place.at(self.index_number(number * place.cells.count(base)), base)).store('=', part, False)

    def vector_in_memory(self, at, to, count, context):
        """The place of the components that `vload` and `vstore` mean."""
        found = self.pointer(to, context, True)
        return found.at(self.number(at, context, True).times(count * found.cells.count(found.kind)), found.kind)

    def built_in_vector(self, node, context):
        """The components of a built-in function of vectors."""
        loads = built_in.LOAD.match(node.name)
        if loads:
            return self.load_vector(node, int(loads[2]), context)
        found = built_in.CONVERT.match(node.name)
        if found:
            return self.convert_vector(node, found, context)
        if node.name in ('shuffle', 'shuffle2'):
            return self.shuffled(node, context)
        kind = node.type
        shared = next(each.type for each in node.arguments if isinstance(each.type, Vector))
        sides = self.in_order(node.arguments, context, lambda each, here: self.operand_parts(
            each, shared if isinstance(each.type, Vector) else Vector(shared.base, shared.count), here))
        if node.name not in NATIVE_CALLS:
            self.notes.add('%s written out' % node.name, node.token)
        elif any(not isinstance(each.type, Vector) for each in node.arguments):
            self.notes.add('a number beside a vector fills all components', node.token)
        return [self.built_in_part(node, [side[number] for side in sides], shared, kind)
                for number in range(kind.count)]

    def built_in_part(self, node, parts, shared, kind):
        """One component of a built-in function."""
        name, base = node.name, shared.base
        if name == 'select':
            test = node.arguments[2].type.base
            return ['(%s)(' % kind.base, upper_bit(parts[2], test), ' ? ', parts[1], ' : ', parts[0], ')']
        if name == 'bitselect':
            return bit_choice(base, *parts)
        if name in ('mul24', 'mad24'):
            return ['(%s)(' % base, parts[0], ' * ', parts[1], [' + ', parts[2]] if name == 'mad24' else [], ')']
        if name == 'mad_hi':
            return ['(%s)(mul_hi(' % base, parts[0], ', ', parts[1], ') + ', parts[2], ')']
        if name == 'upsample':
            low = cast_to(kind.base, cast_to(types.BY_SIZE[types.SIZES[base]], parts[1]))
            return ['(%s)((' % kind.base, cast_to(kind.base, parts[0]), ' << %d) | ' % (8 * types.SIZES[base]), low,
                    ')']
        if name not in NATIVE_CALLS:
            raise Refused(node.token, '%s of vectors' % name)
        texts = []
        for part in parts:
            texts += [', ', part] if texts else [part]
        return [name, '(', texts, ')']

    def load_vector(self, node, count, context):
        """`vload`: the components are loaded one by one."""
        self.notes.add('vload and vstore written out', node.token)
        at, source = node.arguments
        place = self.vector_in_memory(at, source, count, context)
        base = node.type.base
        kind = Scalar(base)
        parts = [Target(None, place.at(self.index_number(number * place.cells.count(kind)), kind)).load()
                 for number in range(count)]
        return self.kept(node.type, parts, context) if context.is_part or context.steps else parts

    def convert_vector(self, node, found, context):
        """`convert_T` and `as_T` of vectors."""
        self.notes.add('%s written out' % node.name, node.token)
        argument, kind = node.arguments[0], node.type
        if not isinstance(argument.type, Vector):
            if found[1] != 'as':
                raise Refused(node.token, 'a number converted to a vector')
            parts, source = [self.once(argument, argument.type, context)], argument.type.name
        else:
            parts, source = self.split(argument, context), argument.type.base
        if found[1] == 'as' and types.SIZES[source] != types.SIZES[kind.base]:
            if isinstance(argument.type, Vector):
                parts = self.kept(argument.type, parts, context)
            return regrouped(parts, source, kind)
        if len(parts) != kind.count and not (found[1] == 'as' and {len(parts), kind.count} == {3, 4}):
            raise Refused(node.token, 'a conversion to another number of components')
        parts = parts[:kind.count] + ['0'] * (kind.count - len(parts))
        if found[4]:
            return [saturated(part, source, kind.base) for part in parts]
        return [cast_to(kind.base, part) for part in parts]

    def shuffled(self, node, context):
        """`shuffle` with a mask."""
        self.notes.add('%s written out' % node.name, node.token)
        parts = []
        for each in node.arguments[:-1]:
            parts += self.kept(each.type, self.split(each, context), context)
        mask = node.arguments[-1]
        numbers = self.kept(mask.type, self.split(mask, context), context)
        found = []
        for number in numbers:
            text = parts[-1]
            for at in range(len(parts) - 2, -1, -1):
                text = ['((%s & %d) == %d ? ' % (number, len(parts) - 1, at), parts[at], ' : ', text, ')']
            found.append(text)
        return found


def bit_choice(name, one, two, mask):
    """The bits of one where the mask has 0, and of the other where it has 1."""
    return ['(%s)(((' % name, one, ') & ~(', mask, ')) | ((', two, ') & (', mask, ')))']


def upper_bit(text, name):
    """Whether a number has its upper bit, as 0 or 1."""
    if types.is_signed(name):
        return ['((', text, ') < 0)']
    return ['((ulong)(', text, ') >> %d == 1)' % (8 * types.SIZES[name] - 1)]


def saturated(text, source, name):
    """A number held at the ends of a type."""
    least, largest = LIMITS[name]
    if source == 'ulong':
        return ['(%s)min((ulong)(' % name, text, '), (ulong)(%s))' % largest]
    if name == 'ulong':
        return ['(ulong)max((long)(', text, '), 0L)']
    return ['(%s)clamp((long)(' % name, text, '), (long)(%s), (long)(%s))' % (least, largest)]


def joined(parts, base, name):
    """Numbers that stand one behind the other in memory, as one."""
    size, texts = types.SIZES[base], []
    if len(parts) * size != types.SIZES[name]:
        raise Refused(None, 'a vector as a number of another size')
    for number, part in enumerate(parts):
        texts += [' | '] if texts else []
        texts += ['((ulong)(%s)(' % types.BY_SIZE[size], part, ') << %d)' % (8 * size * number)]
    return texts


def regrouped(parts, source, kind):
    """The bytes of numbers as the components of a vector."""
    here, there = types.SIZES[source], types.SIZES[kind.base]
    if here * len(parts) != there * kind.count:
        raise Refused(None, 'a vector of another number of bytes')
    if here < there:
        each = there // here
        return [['(%s)(' % kind.base, joined(parts[at:at + each], source, types.BY_SIZE[there]), ')']
                for at in range(0, len(parts), each)]
    each = here // there
    return [['(%s)((' % kind.base, part, ') >> %d)' % (8 * there * number)] for part in parts for number in range(each)]
