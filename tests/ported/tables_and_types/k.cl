enum { A = 3, B, C = A * 4 };
typedef enum color { RED, GREEN = 5 } color_t;
typedef unsigned long long u64; typedef __global int *gp;
struct pair { uchar k; uint v; };
static constant int table[2][3] = { { 1, 2 }, { [2] = 7 } };
__constant struct pair pairs[] = { { 1, 70000 }, { .v = 5 }, { 'z', 0xffffffff } };
__constant uint4 vt[2] = { (uint4)(1, 2, 3, 4), (uint4)(9) };
__constant char text[] = "h\x41\n\0z";
color_t next(color_t c) { return c == RED ? GREEN : RED; }
void bump(int *p, struct pair *q, int by) { *p += by; q->v += by; q->k = q->k + by; }
static inline uint poly(u64 x) { return (uint)(x * 1099511628211ULL >> 32); }
int find(__global const int *a, int n, int what) {
  int r = -1;
  for (int i = 0; i < n; i++) for (int j = 0; j < 2; j++) { if ((a[i] & 15) == what + j) { r = i; goto done; } }
done:
  return r;
}
__attribute__((always_inline)) int twice(int x[2]) { return x[0] * 2 + x[1]; }
__kernel void k(gp a, gp o, int n)
{
  size_t i = get_global_id(0);
  __constant int sq[4] = { 0, 1, 4, 9 };
  gp out = o + 16 * i, end = out + 4, p;
  int x = 4; struct pair q = { 7, i };
  bump(&x, &q, (int)i);
  p = out;
  while (p < end) { *p = x + (int)(end - p); p++; }
  out[4] = q.k; out[5] = q.v;
  out[6] = table[1][2] + table[0][1] + sq[i & 3] + pairs[i % 3].v + pairs[2].k + vt[i & 1].z + text[i % 6] + "xyz"[i & 1];
  out[7] = poly((u64)a[i]) + A + B + C + next(GREEN) + next(RED);
  out[8] = find(a, n, (int)(i & 15));
  int pr[2] = { 1, 2 }; out[9] = twice(pr) + 0b101 + sizeof(pr) / sizeof(pr[0]);
  switch (i & 3) { int t; case 0: t = 3; out[10] = t; break; case 1: { int t = 9; out[10] = t; } default: out[11] = 4; }
  struct pair r = q; r.k += 250; r.v -= 9; struct pair *s = i & 1 ? &q : &r; out[12] = s->k * 3 + s->v;
  out[13] = (short)get_local_id(0) * 3;
  (void)n; int reg = 3; long unsigned lu = reg; out[14] = lu << 3;
  uchar m[2][2][2][2] = { { { { 1, 2 }, { 3, 4 } } }, { { { 5 } } } }; out[15] = m[0][0][1][i & 1] + m[1][0][0][0] * 10;
}
