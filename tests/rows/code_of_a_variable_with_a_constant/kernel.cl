__kernel void k(__global int *a) { int n = 5; a[0] = n * n; }
