__kernel void k(__global int *a) { a[0] = min(7, 3) + clamp(9, 0, 5) + (int)abs(-4); }
