__kernel void k(__global int *a) { for (; 0;) a[1] = 5; a[0] = 1; }
