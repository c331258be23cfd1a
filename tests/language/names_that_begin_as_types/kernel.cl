__kernel void k(__global int *a) { int int3x = 1, char5 = 2, double17 = 3, uintx = 4, work_group_size = 5; a[0] = int3x + char5 + double17 + uintx + work_group_size; }
