"""The built-in functions of OpenCL C: which type a call has, and what cannot be taken over."""
import re

from . import types
from .notes import Refused
from .types import Other, Scalar, Vector
from .typing import pointed

ITEM = ('get_global_size', 'get_local_size', 'get_num_groups', 'get_global_offset', 'get_local_id', 'get_group_id',
        'get_global_id', 'get_enqueued_local_size')
LINEAR = ('get_global_linear_id', 'get_local_linear_id')
BARRIERS = ('barrier', 'work_group_barrier')
FENCES = ('mem_fence', 'read_mem_fence', 'write_mem_fence')
# Those that `wgcc` has, of numbers and of vectors.
OWN = ('abs', 'abs_diff', 'min', 'max', 'clamp', 'add_sat', 'sub_sat', 'hadd', 'rhadd', 'mul_hi', 'rotate', 'clz',
       'popcount')
FURTHER = ('mul24', 'mad24', 'mad_hi', 'mad_sat', 'bitselect', 'select', 'upsample')
COUNTS = {'abs': 1, 'clz': 1, 'popcount': 1, 'clamp': 3, 'mad24': 3, 'mad_hi': 3, 'mad_sat': 3, 'bitselect': 3,
          'select': 3}
CONVERT = re.compile(r'(convert|as)_([a-z]+)(\d*)(_sat)?(_rt[eznp])?$')
LOAD = re.compile(r'(vload|vstore)(2|3|4|8|16)$')
ATOMIC = re.compile(r'(atom|atomic)_\w+$')
MATHEMATICS = re.compile(r'(native_|half_)?(sqrt|rsqrt|sin|cos|tan|exp|exp2|log|log2|log10|pow|pown|powr|fabs|floor|'
                         r'ceil|round|trunc|fma|mad|fmin|fmax|fmod|hypot|atan2?|dot|cross|length|distance|normalize|'
                         r'mix|smoothstep|step|sign|recip|divide)$')
WIDER = {'char': 'short', 'uchar': 'ushort', 'short': 'int', 'ushort': 'uint', 'int': 'long', 'uint': 'ulong'}


def shaped(base, like):
    """The type of a base that has as many components as another type."""
    return Vector(base, like.count) if isinstance(like, Vector) else Scalar(base)


def base_of(kind):
    """The type of the components, or of the number."""
    return kind.base if isinstance(kind, Vector) else kind.name


def shared_type(node):
    """The type in which a built-in function of several arguments is computed."""
    kinds = [each.type for each in node.arguments]
    vectors = [kind for kind in kinds if isinstance(kind, Vector)]
    if vectors:
        if any(kind != vectors[0] for kind in vectors) and node.name not in ('select',):
            raise Refused(node.token, '%s of vectors of two types' % node.name)
        return vectors[0]
    if any(not types.is_number(kind) for kind in kinds):
        raise Refused(node.token, 'the arguments of %s' % node.name)
    first = types.INT if kinds[0] == types.BOOL else kinds[0]
    for kind in kinds[1:]:
        first = first if kind == first else types.common(first, kind)
    return first


def further_type(node):
    """The type of a call of those that `wgcc` does not have."""
    name = node.name
    if name == 'select':
        kinds = [each.type for each in node.arguments[:2]]
        vectors = [kind for kind in kinds if isinstance(kind, Vector)]
        if vectors:
            return vectors[0]
        if kinds[0] == kinds[1]:
            return kinds[0]
        whole = [each.type for each in node.arguments[:2] if each.kind != 'number']
        if len(whole) == 1:
            return whole[0]
        raise Refused(node.token, 'select of two types', 'select')
    if name in ('mul24', 'mad24'):
        kind = shared_type(node)
        return kind if isinstance(kind, Vector) else types.common(kind, kind)
    if name == 'upsample':
        first = node.arguments[0].type
        if base_of(first) not in WIDER:
            raise Refused(node.token, 'upsample of numbers of 64 bits')
        return shaped(WIDER[base_of(first)], first)
    return shared_type(node)


def call_type(node):
    """The type of a call of a built-in function; what is none, or cannot be taken over, is refused."""
    name, number = node.name, len(node.arguments)
    if name in ITEM or name in LINEAR:
        return types.ULONG
    if name == 'get_work_dim':
        return types.UINT
    if name in BARRIERS or name in FENCES or name in ('prefetch', 'wait_group_events'):
        return types.VOID
    if name in ('async_work_group_copy', 'async_work_group_strided_copy'):
        return Other('event_t')
    if name in OWN or name in FURTHER:
        if number != COUNTS.get(name, 2):
            raise Refused(node.token, '%s of %d arguments' % (name, number))
        kind = further_type(node) if name in FURTHER else shared_type(node)
        unsigned = name in ('abs', 'abs_diff')
        return shaped(types.UNSIGNED.get(base_of(kind), base_of(kind)), kind) if unsigned else kind
    if name in ('any', 'all'):
        return types.INT
    if name in ('shuffle', 'shuffle2'):
        mask = node.arguments[-1].type
        return Vector(node.arguments[0].type.base, mask.count)
    found = CONVERT.match(name)
    if found:
        kind = types.named_type(found[2] + found[3])
        if isinstance(kind, (Scalar, Vector)):
            return kind
        raise Refused(node.token, 'floating point: %s' % name)
    found = LOAD.match(name)
    if found:
        to = pointed(node.arguments[-1])
        if to is None or not types.is_number(to.to):
            raise Refused(node.token, '%s of what is no pointer to numbers' % name, 'vload')
        return Vector(to.to.name, int(found[2])) if found[1] == 'vload' else types.VOID
    return unknown(node)


def unknown(node):
    """Refuses a name that is no function here."""
    if ATOMIC.match(node.name):
        raise Refused(node.token, 'the atomic function %s' % node.name, 'atomic_in_a_group')
    if node.name == 'printf':
        raise Refused(node.token, 'printf', 'printf')
    if MATHEMATICS.match(node.name):
        raise Refused(node.token, 'floating point: %s' % node.name)
    raise Refused(node.token, 'there is no function %s' % node.name)
