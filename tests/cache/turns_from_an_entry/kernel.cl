__kernel void inc(__global int *a) { for (int i = 0; i < 3; i++) a[get_global_id(0)] += 1; }
