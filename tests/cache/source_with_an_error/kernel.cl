__kernel void inc(__global int *a) { b[0] = 1; }
