__kernel void sq(__global int *a) { int l = get_local_id(0); int s = 0; int i; for (i = 0; i < l; i++) s += l; a[l] = s; }
