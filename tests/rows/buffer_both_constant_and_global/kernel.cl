__kernel void cg(__constant int *c, __global int *g) { g[0] = c[0]; }
