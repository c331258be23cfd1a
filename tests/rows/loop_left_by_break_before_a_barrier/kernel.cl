__kernel void w(__global int *a) { int r = 0; while (1) { if (get_local_id(0) == r) break; r++; } barrier(CLK_LOCAL_MEM_FENCE); a[get_local_id(0)] = r; }
