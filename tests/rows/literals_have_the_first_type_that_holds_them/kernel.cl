__kernel void li(__global long *a) { a[0] = 2147483648; a[1] = 0xFFFFFFFF + 1; a[2] = -2147483648; }
