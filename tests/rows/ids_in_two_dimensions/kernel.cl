__kernel void ix(__global int *a) { int x = get_global_id(0); int y = get_global_id(1); a[y * 4 + x] = 100 * get_group_id(1) + 10 * get_local_id(0) + get_local_id(1); }
