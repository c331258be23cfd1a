__kernel void k(__global int *a) { a[0] = 1 ? a[1] : a[2]; }
