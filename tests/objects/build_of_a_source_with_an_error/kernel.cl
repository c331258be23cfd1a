__kernel void inc(__global int *a) { b[get_global_id(0)] = a[get_global_id(0)] + 1; }
