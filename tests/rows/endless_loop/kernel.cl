__kernel void sq(__global int *a) { while (1) {} }
