__kernel void inc(__global int *clz) { clz[get_global_id(0)] = clz[get_global_id(0)] + 1; }
