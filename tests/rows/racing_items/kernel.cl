__kernel void race(__global int *a) { a[0] = get_global_id(0); }
