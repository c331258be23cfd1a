__kernel void add(__global int *a) { a[0] = a[0] + 1; }
