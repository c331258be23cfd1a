__kernel void k(__global int *a, uchar u, uchar v) {
a[0] = add_sat(2147483647, 1);
a[1] = rotate((uchar)0x81, (uchar)1);
a[2] = clz(u);
a[3] = abs(-5);
a[4] = abs_diff(u, v) + max(u, 1);
a[5] = clamp(u, 1u, 2L);
a[6] = popcount((bool)u);
a[7] = get_global_id(u) + get_local_size(0);
a[8] = mul_hi(u, v) - hadd(1, -1L);
}