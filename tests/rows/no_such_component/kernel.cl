__kernel void e(__global int4 *a) { int4 t; t.x = t.sF; }
