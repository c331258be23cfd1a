inline void ComparatorPrivate(uint *keyA, uint *valA, uint *keyB, uint *valB, uint dir) {
    if ((*keyA > *keyB) == dir) { uint t; t = *keyA; *keyA = *keyB; *keyB = t; t = *valA; *valA = *valB; *valB = t; }
}
inline void ComparatorLocal(__local uint *keyA, __local uint *valA, __local uint *keyB, __local uint *valB, uint dir) {
    if ((*keyA > *keyB) == dir) { uint t; t = *keyA; *keyA = *keyB; *keyB = t; t = *valA; *valA = *valB; *valB = t; }
}
#define LOCAL_SIZE_LIMIT 16U
__kernel __attribute__((reqd_work_group_size(LOCAL_SIZE_LIMIT / 2, 1, 1)))
void k(__global uint *d_Src, __global uint *d_Dst, uint sortDir)
{
    __local uint l_key[LOCAL_SIZE_LIMIT];
    __local uint l_val[LOCAL_SIZE_LIMIT];
    d_Src += get_group_id(0) * LOCAL_SIZE_LIMIT + get_local_id(0);
    d_Dst += get_group_id(0) * LOCAL_SIZE_LIMIT + get_local_id(0);
    l_key[get_local_id(0) + 0] = d_Src[0];
    l_val[get_local_id(0) + 0] = get_local_id(0);
    l_key[get_local_id(0) + (LOCAL_SIZE_LIMIT / 2)] = d_Src[(LOCAL_SIZE_LIMIT / 2)];
    l_val[get_local_id(0) + (LOCAL_SIZE_LIMIT / 2)] = get_local_id(0) + 8;
    for (uint size = 2; size < LOCAL_SIZE_LIMIT; size <<= 1) {
        uint dir = ((get_local_id(0) & (size / 2)) != 0);
        for (uint stride = size / 2; stride > 0; stride >>= 1) {
            barrier(CLK_LOCAL_MEM_FENCE);
            uint pos = 2 * get_local_id(0) - (get_local_id(0) & (stride - 1));
            ComparatorLocal(&l_key[pos + 0], &l_val[pos + 0], &l_key[pos + stride], &l_val[pos + stride], dir);
        }
    }
    for (uint stride = LOCAL_SIZE_LIMIT / 2; stride > 0; stride >>= 1) {
        barrier(CLK_LOCAL_MEM_FENCE);
        uint pos = 2 * get_local_id(0) - (get_local_id(0) & (stride - 1));
        ComparatorLocal(&l_key[pos + 0], &l_val[pos + 0], &l_key[pos + stride], &l_val[pos + stride], sortDir & 1);
    }
    barrier(CLK_LOCAL_MEM_FENCE);
    uint ka = l_key[get_local_id(0)], va = l_val[get_local_id(0)], kb = 5, vb = 6;
    ComparatorPrivate(&ka, &va, &kb, &vb, 1);
    d_Dst[0] = ka + va * 3;
    d_Dst[(LOCAL_SIZE_LIMIT / 2)] = l_key[get_local_id(0) + (LOCAL_SIZE_LIMIT / 2)] ^ kb;
}
