"""The functions that are known without a declaration: those of the subset, and those that OpenCL C has beside them."""
import re

from explain_parts import page

WORK_ITEM = ['get_work_dim', 'get_global_size', 'get_local_size', 'get_num_groups', 'get_global_offset', 'get_local_id',
             'get_group_id', 'get_global_id']
NUMBERS = ['abs', 'abs_diff', 'min', 'max', 'clamp', 'add_sat', 'sub_sat', 'hadd', 'rhadd', 'mul_hi', 'rotate', 'clz',
           'popcount']
BARRIERS = ['barrier', 'mem_fence', 'read_mem_fence', 'write_mem_fence']
FLAGS = ['CLK_LOCAL_MEM_FENCE', 'CLK_GLOBAL_MEM_FENCE']
KNOWN = WORK_ITEM + NUMBERS + BARRIERS
# How many arguments the functions take that do not take two.
ARGUMENTS = {**{name: 1 for name in [*WORK_ITEM, *BARRIERS, 'abs', 'clz', 'popcount']}, 'get_work_dim': 0, 'clamp': 3}
SCALAR = r'(?:u?char|u?short|u?int|u?long|float|double|half|size_t|ptrdiff_t)'
COUNT = r'(?:2|3|4|8|16)'
ROUNDED = r'(?:_sat)?(?:_rt[ezpn])?'
FLOATING = set('''acos acosh acospi asin asinh asinpi atan atan2 atanh atanpi atan2pi cbrt ceil copysign cos cosh cospi
erfc erf exp exp2 exp10 expm1 fabs fdim floor fma fmax fmin fmod fract frexp hypot ilogb ldexp lgamma lgamma_r log log2
log10 log1p logb mad maxmag minmag modf nan nextafter pow pown powr remainder remquo rint rootn round rsqrt sin sincos
sinh sinpi sqrt tan tanh tanpi tgamma trunc degrees mix radians step smoothstep sign cross dot distance length normalize
fast_distance fast_length fast_normalize isequal isnotequal isgreater isgreaterequal isless islessequal islessgreater
isfinite isinf isnan isnormal isordered isunordered signbit'''.split())
WHOLE = set('''mad24 mul24 mad_hi mad_sat upsample ctz any all bitselect select shuffle shuffle2 vec_step printf
async_work_group_copy async_work_group_strided_copy wait_group_events prefetch get_global_linear_id get_local_linear_id
get_enqueued_local_size work_group_barrier get_fence to_global to_local to_private'''.split())
PATTERNS = [
    (re.compile(r'convert_%s_sat(?:_rt[ezpn])?\Z' % SCALAR), 'convert_uchar_sat'),
    (re.compile(r'convert_%s%s\Z' % (SCALAR, ROUNDED)), 'convert_char'),
    (re.compile(r'convert_%s%s%s\Z' % (SCALAR, COUNT, ROUNDED)), 'convert_uchar4'),
    (re.compile(r'as_%s\Z' % SCALAR), 'as_uint'),
    (re.compile(r'as_%s%s\Z' % (SCALAR, COUNT)), 'as_uint4'),
    (re.compile(r'vload(?:a?_half)?%s\Z' % COUNT), 'vload4'),
    (re.compile(r'vstore(?:a?_half)?%s(?:_rt[ezpn])?\Z' % COUNT), 'vstore4'),
    (re.compile(r'atom(?:ic)?_(?:add|sub|inc|dec|xchg|cmpxchg|min|max|and|or|xor|init|load|store|exchange'
                r'|fetch_\w+|flag_\w+|compare_\w+)(?:_explicit)?\Z'), 'atomic_add'),
    (re.compile(r'(?:native|half)_(?:cos|divide|exp|exp2|exp10|log|log2|log10|powr|recip|rsqrt|sin|sqrt|tan)\Z'), None),
    (re.compile(r'(?:read|write)_image\w*\Z|get_image_\w+\Z'), None),
    (re.compile(r'(?:sub_group|work_group)_\w+\Z|get_sub_group_\w+\Z'), None),
]


def is_other(name):
    """Whether OpenCL C has a function of this name that the subset lacks."""
    return name in FLOATING or name in WHOLE or any(pattern.match(name) for pattern, _ in PATTERNS)


def said_of(name):
    """What is said of a function of OpenCL C that the subset lacks: its row of docs/PORTING.md where it has one."""
    text = '`%s` is a function of OpenCL C that the subset lacks.' % name
    row = page.rows_that_name(name)
    for pattern, like in PATTERNS:
        if not row and like and pattern.match(name):
            row = page.rows_that_name(like)
    if row:
        return '%s %s' % (text, row)
    if name in FLOATING:
        return text + ' It works on floating point, of which the subset has nothing.'
    return text + ' docs/PORTING.md has no row for it.'
