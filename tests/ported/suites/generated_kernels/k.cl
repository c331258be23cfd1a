#pragma OPENCL EXTENSION cl_khr_byte_addressable_store : enable
#ifdef cl_khr_int64_base_atomics
#pragma OPENCL EXTENSION cl_khr_int64_base_atomics : enable
#endif
#if !defined(GROUP) || GROUP > 64
#error "GROUP has to be given"
#endif
#define UNROLL _Pragma("unroll")
#define CAT_(a, b) a##_##b
#define CAT(a, b) CAT_(a, b)
#define DEFINE_SUM(T) \
  T CAT(sum, T)(__local T *s, uint l) { \
    UNROLL \
    for (uint d = GROUP / 2; d; d >>= 1) { if (l < d) s[l] += s[l + d]; barrier(CLK_LOCAL_MEM_FENCE); } \
    return s[0]; } \
  __kernel __attribute__((reqd_work_group_size(GROUP, 1, 1))) void CAT(reduce, T)(__global const T *restrict in, __global T *restrict out) { \
    __local T s[GROUP]; \
    s[get_local_id(0)] = in[get_global_id(0)]; \
    barrier(CLK_LOCAL_MEM_FENCE); \
    T r = CAT(sum, T)(s, get_local_id(0)); \
    if (!get_local_id(0)) out[get_group_id(0)] = r; }
DEFINE_SUM(int)
DEFINE_SUM(ulong)
DEFINE_SUM(uchar)
