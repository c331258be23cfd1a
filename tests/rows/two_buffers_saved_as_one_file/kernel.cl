__kernel void two(__global int *a, __global int *b) { }
