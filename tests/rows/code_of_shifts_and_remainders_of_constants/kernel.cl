__kernel void k(__global int *a) { a[0] = (1 << 33) + 7 % 0; }
