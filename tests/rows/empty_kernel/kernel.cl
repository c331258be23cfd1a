__kernel void nop(__global int *a) { }
