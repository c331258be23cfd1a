__kernel void v(__global int4 *a) { int4 t = a[get_global_id(0)]; t.xy = t.yx; a[get_global_id(0)] = t * 2 + (int4)(0, 0, 0, 1); }
