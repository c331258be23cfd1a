__kernel void f(__global float *a) { }
