__kernel void inc(__global int *a) { a[get_global_id(0)] = a[get_global_id(0)] + 1; }
__kernel void twice(__global int *a) { a[get_global_id(0)] = 2 * a[get_global_id(0)]; }
