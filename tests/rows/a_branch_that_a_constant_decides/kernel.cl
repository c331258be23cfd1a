__kernel void z(__global int *a) { int u = 7 / 0; if (0) a[5] = 1; a[0] = u; }
