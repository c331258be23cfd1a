#define FIRST v.x
__kernel void k(__global int *v) { v[0] = FIRST + v [1] . lo.s0; v->x; .5; a...b; }
