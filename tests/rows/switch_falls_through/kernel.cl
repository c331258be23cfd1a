__kernel void sw(__global int *a) { int i = get_global_id(0); int s = 0; switch (i) { case 1: s += 1; case 2: s += 2; break; default: s = 9; } a[i] = s; }
