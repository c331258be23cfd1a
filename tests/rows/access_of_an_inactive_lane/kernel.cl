__kernel void some(__global int *a, int n) { int i = get_global_id(0); if (i < n && a[i] > 0) a[i] = 0; }
