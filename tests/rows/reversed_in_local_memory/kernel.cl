__kernel void rev(__global int *a) { __local int t[4]; int l = get_local_id(0); t[l] = a[get_global_id(0)]; barrier(CLK_LOCAL_MEM_FENCE); a[get_global_id(0)] = t[3 - l]; }
