__kernel void inc(__global int *a) { a[get_global_id(0)] = a[get_global_id(0)] + N; }
