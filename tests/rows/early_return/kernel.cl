__kernel void head(__global int *a, int n) { if (get_global_id(0) >= n) return; a[get_global_id(0)] = 0; }
