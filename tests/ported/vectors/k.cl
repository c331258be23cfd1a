typedef struct { int x; uint4 v; short s[2]; uchar c; } S;
int4 twice(int4 v) { return v + v; }
int4 pick(int4 a, int4 b, int n) { if (n > 2) return a; return b.wzyx; }
int sum(int4 v) { return v.x + v.y + v.z + v.w; }
S make(int i) { S s; s.x = i; s.v = (uint4)(i, i + 1, i + 2, i + 3); s.s[0] = -i; s.s[1] = i * 300; s.c = i * 77; return s; }
int use(S s) { return s.x + s.v.y * 3 + s.s[0] + s.s[1] + s.c; }
__kernel void k(__global const int *a, __global int *o, int n)
{
  int i = get_global_id(0);
  int4 v = vload4(i & 3, a), w = (int4)7;
  o[i * 16 + 0] = sum(twice(v)) + sum(pick(v, w, i));
  w = v; w += twice(w).yxwz;
  o[i * 16 + 1] = w.x ^ w.w;
  int4 u = convert_int4(v > w) & 3;
  o[i * 16 + 2] = u.x + 2 * u.y + 5 * u.z + 9 * u.w;
  S s = make(i), t[2];
  t[1] = s; t[0] = make(i + 1); t[1].v.z += 5u; t[1].s[1] >>= 2; t[0].c += 200;
  o[i * 16 + 3] = use(s) + use(t[0]) - use(t[1]);
  S *p = &t[0];
  p++;
  o[i * 16 + 4] = p->x + (*p).v.z + p[-1].s[0] + p->c++;
  o[i * 16 + 5] = t[1].c;
  o[i * 16 + 6] = any(v > w) + 2 * all(v == w) + select(i, n, i > 3) + (int)bitselect(0x0f0fu, 0xffffu, (uint)i);
  uchar4 b = as_uchar4(a[i]);
  o[i * 16 + 7] = b.x + b.y * 2 + b.z * 3 + b.w * 4 + as_int(b.wzyx);
  char4 c = convert_char4_sat(v);
  vstore4(convert_int4(c), 2, o + i * 16);
  int4 x = i > 4 ? v : w;
  int4 y = select(v, w, v < w);
  x = v < (int4)(i) ? x : y;
  o[i * 16 + 12] = x.x + x.y + x.z + x.w;
  int k2 = i, *q = &k2; *q += 3; (*q)++;
  o[i * 16 + 13] = k2 + sizeof(S) + sizeof v;
  int4 z; z.xyz = v.zyx; z.w = 1; z.lo = z.hi + z.lo;
  o[i * 16 + 14] = z.x - z.y + z.z;
  o[i * 16 + 15] = upsample((short)i, (ushort)a[i]) + mul24(i, n) + mad_hi(a[i], 3, 4) + mad_sat(a[i], n, 7) + 'a' + rotate(a[i], n);
}
