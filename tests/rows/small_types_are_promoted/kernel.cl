__kernel void pr(__global int *b, __global uchar *c) { uchar u = 200, v = 100; b[0] = u + v; c[0] = u + v; }
