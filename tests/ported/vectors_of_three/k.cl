#define BLOCK 8
#define IMAD(a, b, c) (mul24((a), (b)) + (c))
typedef enum { MODE_A, MODE_B = 4, MODE_C } mode;
struct pixel { uchar r, g, b, a; };
int3 cross3(int3 a, int3 b) { return (int3)(a.y * b.z - a.z * b.y, a.z * b.x - a.x * b.z, a.x * b.y - a.y * b.x); }
int dot3(const int3 a, const int3 b) { int3 t = a * b; return t.x + t.y + t.z; }
uint pack(struct pixel p) { return p.r | p.g << 8 | (uint)p.b << 16 | (uint)p.a << 24; }
struct pixel blend(struct pixel p, struct pixel q, uchar alpha) { struct pixel r; r.r = (p.r * alpha + q.r * (255 - alpha)) / 255; r.g = p.g > q.g ? p.g : q.g; r.b = add_sat(p.b, q.b); r.a = ~p.a; return r; }
void swap_(__private int *restrict a, __private int *restrict b) { const int t = *a; *a = *b; *b = t; }
void sort3(int *v) { for (int i = 0; i < 2; i++) for (int j = 0; j < 2 - i; j++) if (v[j] > v[j + 1]) swap_(v + j, &v[j + 1]); }
__kernel void k(__global const struct pixel *in, __global uint *out, int n)
{
  const int i = get_global_id(0);
  struct pixel p = in[i], q = in[(i + 1) % 16];
  out[i] = pack(blend(p, q, p.a)) + pack(in[i + 2]);
  int3 u = (int3)(p.r, p.g, p.b), v = { q.r, q.g, q.b };
  int3 w = cross3(u, v); w.xy = w.yx; w += 3; w = w / 2 - (int3)(1, 2, 3);
  out[16 + i] = dot3(w, u) ^ dot3(cross3(v, w), (int3)1) ^ w.z;
  int arr[4] = { p.r, q.r, p.b }; sort3(arr);
  out[32 + i] = arr[0] + arr[1] * 256 + arr[2] * 65536;
  mode m = i % 3 == 0 ? MODE_A : i % 3 == 1 ? MODE_B : MODE_C;
  switch (m) { case MODE_A: out[48 + i] = IMAD(i, 3, 1); break; case MODE_B: out[48 + i] = 'B'; break; case MODE_C: default: out[48 + i] = sizeof(struct pixel) + sizeof(int3); }
  uint2 st[3]; st[0] = (uint2)(i, 7u); st[1] = st[0].yx * st[0]; st[2] = rotate(st[1], (uint2)(3, 5)) >> 1; st[1] <<= 2; st[2] |= st[0];
  uint4 big = (uint4)(st[1], st[2]); big.hi = big.lo; big.s3++; big = max(big, 10u); big = clamp(big, (uint4)(12), (uint4)(2000));
  out[64 + i] = big.x + big.y * 3 + big.z * 5 + big.w * 7 + (any(st[0] == st[1]) ? 1000 : 0);
  ushort8 us = convert_ushort8_sat((int8)(w.x, w.y, w.z, i, -i, 70000, 3, 4)); us >>= (ushort8)(1); us.even = us.odd; 
  out[80 + i] = us.s0 + us.s3 + us.s4 + us.s6 * 2;
  long2 ll = convert_long2(st[1]) << 33; ll = -ll; ll ^= (long2)(i); out[96 + i] = (uint)(ll.x >> 31) + (uint)ll.y;
  __global uint *end = out + 128, *it = out + 112 + i; for (; it < end; it += 16) *it = end - it;
}
