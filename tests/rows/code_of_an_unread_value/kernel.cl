__kernel void k(__global int *a) { a[0] * 3; a[1] = 2; }
