int g(__local int *p, int *q) { return p[1] + *q; }
__kernel void k(__global int *a) {
__local int t[4], c;
int u[2][3] = { 1, 2u };
__global int *r = a + 2, *h = &r[1];
u[1][c] = g(t, u[1]);
r = 1 + r;
r -= 3;
*h = t[1];
for (int i = 0; i < 2; i++) c += r[i];
}