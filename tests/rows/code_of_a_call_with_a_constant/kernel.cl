int twice(int n) { return n + n; }
__kernel void k(__global int *a) { a[0] = twice(4); }
