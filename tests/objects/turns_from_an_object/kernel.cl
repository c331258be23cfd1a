__kernel void count(__global int *a) { for (int i = 0; i < 4; i++) a[i] = i; }
