__kernel void inc(__global int *a) { int x = x; }
