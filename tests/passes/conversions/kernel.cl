__kernel void k(__global long *a, uchar u, short s, uint n) {
bool b = u;
a[0] = u + s;
a[1] = n + s;
a[2] = a[3] + n;
a[4] = u == b;
a[5] = !u + ~s;
a[6] = -n + +b;
u = n ? s : 2u;
b = u && n || 1L;
a[7] = (char)n * 3ul;
a[8] = 0xFFFFFFFF + 2147483648;
s += n;
u++;
--n;
a[9] = (u = 300, sizeof(short));
}