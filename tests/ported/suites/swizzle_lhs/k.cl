__kernel void swz(__global int8 *a, __global short4 *b, __global uchar8 *c)
{
  size_t i = get_global_id(0);
  int8 v = a[i];
  v.s0246 = v.s1357;
  v.even += v.odd;
  v.hi.xy = v.lo.zw;
  v.s7 = v.s0 + v.lo.y;
  v.odd = -v.odd;
  a[i] = v;
  short4 s = convert_short4_sat(v.lo);
  s.wzyx = s;
  s.xy <<= (short2)(1, 2);
  s = s > (short4)(100) ? (short4)(100) : s;
  b[i] = s + (short4)(s.hi, s.lo);
  uchar8 u = as_uchar8(s);
  u.s3 = 7; u.lo = u.hi.wzyx; ++u.s0;
  c[i] = rotate(u, (uchar8)(3)) ^ (uchar8)(u.s01234567 >> (uchar8)1);
}
