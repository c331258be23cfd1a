__kernel void c(__global uchar4 *a, __global char4 *b) { a[0] = a[0] + (uchar4)(100); b[0] = a[0] < (uchar4)(100); }
