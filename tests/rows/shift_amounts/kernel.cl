__kernel void sh(__global int *a) { a[0] = 1 << 33; a[1] = -8 >> 1; a[2] = 1 << -1; a[3] = (uchar)1 << 9; }
