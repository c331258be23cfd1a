__kernel void k() { }
