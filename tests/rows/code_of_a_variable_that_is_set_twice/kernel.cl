__kernel void k(__global int *a) { int n = 5; if (a[1]) n = 6; a[0] = n * n; }
