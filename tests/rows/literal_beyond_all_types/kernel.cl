__kernel void li(__global long *a) { a[0] = 18446744073709551616; }
