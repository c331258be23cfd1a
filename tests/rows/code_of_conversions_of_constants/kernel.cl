__kernel void k(__global int *a) { uchar c = 300; a[0] = c + (short)70000; }
