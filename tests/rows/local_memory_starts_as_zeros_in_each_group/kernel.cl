__kernel void zl(__global int *a) { __local int t[2]; a[get_global_id(0)] += t[get_local_id(0)]; t[get_local_id(0)] = 9; }
