__kernel void dv(__global int *x, __global int *y, __global int *q, __global int *r) { int i = get_global_id(0); q[i] = x[i] / y[i]; r[i] = x[i] % y[i]; }
