__kernel void li(__global long *a) { a[0] = 1.5; }
