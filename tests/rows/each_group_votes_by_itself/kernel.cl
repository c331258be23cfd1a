__kernel void all(__global int *a) { if (get_group_id(0) == 0) barrier(CLK_GLOBAL_MEM_FENCE); a[get_global_id(0)] = 1; }
