#define WARP_SIZE 8
uint scanLSB(const uint val, __local uint *s_data) {
    int idx = get_local_id(0);
    s_data[idx] = 0; idx += get_local_size(0); s_data[idx] = val; barrier(CLK_LOCAL_MEM_FENCE);
    uint t;
    for (int i = 1; i < get_local_size(0); i *= 2) { t = s_data[idx - i]; barrier(CLK_LOCAL_MEM_FENCE); s_data[idx] += t; barrier(CLK_LOCAL_MEM_FENCE); }
    return s_data[idx - 1];
}
uint4 scan4(uint4 idata, __local uint *ptr) {
    uint4 val4 = idata; uint sum[3];
    sum[0] = val4.x; sum[1] = val4.y + sum[0]; sum[2] = val4.z + sum[1];
    uint val = val4.w + sum[2];
    val = scanLSB(val, ptr);
    val4.x = val; val4.y = val + sum[0]; val4.z = val + sum[1]; val4.w = val + sum[2];
    return val4;
}
uint4 rank4(uint4 preds, __local uint *sMem, __local uint *numtrue) {
    int localId = get_local_id(0), localSize = get_local_size(0);
    uint4 address = scan4(preds, sMem);
    if (localId == localSize - 1) numtrue[0] = address.w + preds.w;
    barrier(CLK_LOCAL_MEM_FENCE);
    uint4 rank; int idx = localId * 4;
    rank.x = (preds.x) ? address.x : numtrue[0] + idx - address.x;
    rank.y = (preds.y) ? address.y : numtrue[0] + idx + 1 - address.y;
    rank.z = (preds.z) ? address.z : numtrue[0] + idx + 2 - address.z;
    rank.w = (preds.w) ? address.w : numtrue[0] + idx + 3 - address.w;
    return rank;
}
void radixSortBlockKeysOnly(uint4 *key, uint nbits, uint startbit, __local uint *sMem, __local uint *numtrue) {
    int localId = get_local_id(0), localSize = get_local_size(0);
    for (uint shift = startbit; shift < (startbit + nbits); ++shift) {
        uint4 lsb;
        lsb.x = !(((*key).x >> shift) & 0x1); lsb.y = !(((*key).y >> shift) & 0x1);
        lsb.z = !(((*key).z >> shift) & 0x1); lsb.w = !((key->w >> shift) & 0x1);
        uint4 r = rank4(lsb, sMem, numtrue);
        barrier(CLK_LOCAL_MEM_FENCE);
        sMem[(r.x & 3) * localSize + (r.x >> 2)] = (*key).x; sMem[(r.y & 3) * localSize + (r.y >> 2)] = (*key).y;
        sMem[(r.z & 3) * localSize + (r.z >> 2)] = (*key).z; sMem[(r.w & 3) * localSize + (r.w >> 2)] = (*key).w;
        barrier(CLK_LOCAL_MEM_FENCE);
        (*key).x = sMem[localId]; (*key).y = sMem[localId + localSize]; (*key).z = sMem[localId + 2 * localSize]; (*key).w = sMem[localId + 3 * localSize];
        barrier(CLK_LOCAL_MEM_FENCE);
    }
}
__kernel void k(__global uint4 *keysIn, __global uint4 *keysOut, uint nbits) {
    __local uint sMem[64], numtrue[1];
    uint4 key = keysIn[get_global_id(0)];
    barrier(CLK_LOCAL_MEM_FENCE);
    radixSortBlockKeysOnly(&key, nbits, 0, sMem, numtrue);
    keysOut[get_global_id(0)] = key;
}
