__kernel void k(__global int *a, uchar u, long w) {
a[0] = 1 << 33;
a[1] = -8 >> 1;
a[2] = (uchar)1 << 9;
a[3] = u << w;
w = 1u >> u;
u <<= w;
w >>= u;
a[u] <<= 2;
}