__kernel void li(__global long *a) { a[0] = 9223372036854775808; }
