__kernel void both(__global int *a, __global uchar *b) { int i = get_global_id(0); b[4 * i + 1] = 1; a[i] += 1; }
