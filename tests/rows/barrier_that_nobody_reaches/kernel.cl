__kernel void len(__global int *a) { int i; int lid = get_local_id(0); for (i = 0; i < lid; i++) if (i == 100) barrier(CLK_LOCAL_MEM_FENCE); a[get_global_id(0)] = i; }
