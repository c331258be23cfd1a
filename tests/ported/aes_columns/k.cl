unsigned char galoisMultiplication(unsigned char a, unsigned char b) {
    unsigned char p = 0;
    for (unsigned int i = 0; i < 8; ++i) { if ((b & 1) == 1) p ^= a; unsigned char hiBitSet = (a & 0x80); a <<= 1; if (hiBitSet == 0x80) a ^= 0x1b; b >>= 1; }
    return p;
}
inline uchar4 sboxRead(__global uchar *SBox, uchar4 block) { return (uchar4)(SBox[block.x], SBox[block.y], SBox[block.z], SBox[block.w]); }
uchar4 mixColumns(__local uchar4 *block, __private uchar4 *galiosCoeff, unsigned int j) {
    unsigned int bw = 4;
    uchar x, y, z, w;
    x = galoisMultiplication(block[0].x, galiosCoeff[(bw - j) % bw].x);
    y = galoisMultiplication(block[0].y, galiosCoeff[(bw - j) % bw].x);
    z = galoisMultiplication(block[0].z, galiosCoeff[(bw - j) % bw].x);
    w = galoisMultiplication(block[0].w, galiosCoeff[(bw - j) % bw].x);
    for (unsigned int k = 1; k < 4; ++k) {
        x ^= galoisMultiplication(block[k].x, galiosCoeff[(k + bw - j) % bw].x);
        y ^= galoisMultiplication(block[k].y, galiosCoeff[(k + bw - j) % bw].x);
        z ^= galoisMultiplication(block[k].z, galiosCoeff[(k + bw - j) % bw].x);
        w ^= galoisMultiplication(block[k].w, galiosCoeff[(k + bw - j) % bw].x);
    }
    return (uchar4)(x, y, z, w);
}
uchar4 shiftRows(uchar4 row, unsigned int j) {
    uchar4 r = row;
    for (uint i = 0; i < j; ++i) { r = r.yzwx; }
    return r;
}
__kernel void k(__global uchar4 *input, __global uchar4 *output, uint rounds) {
    __local uchar4 block0[4], block1[4];
    unsigned int localIdx = get_local_id(0) & 3, globalIndex = get_global_id(0);
    uchar4 galiosCoeff[4];
    galiosCoeff[0] = (uchar4)(2, 0, 0, 0); galiosCoeff[1] = (uchar4)(3, 0, 0, 0); galiosCoeff[2] = (uchar4)(1, 0, 0, 0); galiosCoeff[3] = (uchar4)(1, 0, 0, 0);
    if (get_local_id(0) < 4) block0[localIdx] = input[globalIndex] ^ input[localIdx];
    for (unsigned int r = 1; r < rounds; ++r) {
        barrier(CLK_LOCAL_MEM_FENCE);
        if (get_local_id(0) < 4) { block0[localIdx] = shiftRows(block0[localIdx], localIdx); }
        barrier(CLK_LOCAL_MEM_FENCE);
        if (get_local_id(0) < 4) block1[localIdx] = mixColumns(block0, galiosCoeff, localIdx);
        barrier(CLK_LOCAL_MEM_FENCE);
        if (get_local_id(0) < 4) block0[localIdx] = block1[localIdx] ^ input[r * 4 + localIdx];
    }
    barrier(CLK_LOCAL_MEM_FENCE);
    output[globalIndex] = block0[localIdx] + convert_uchar4(convert_int4(block0[3]) * 3 >> 1);
}
