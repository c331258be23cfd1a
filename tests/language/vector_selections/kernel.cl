__kernel void k(__global int8 *a, __global int *b)
{
  int8 t = a[0];
  t.lo = t.hi;
  t.odd = t.even.wzyx;
  t.s07 = t.s70;
  t.s1 += 100;
  b[0] = t.lo.hi.x + t.s3;
  t.even.xy = (int2)(t.s4, -7);
  a[1] = t;
  a[0].s3 = b[0];
  a[0].hi.lo = a[1].s02;
  int4 u = (int4)(1, 2, 3, 4);
  u.zw.x = 30;
  b[1] = u.x + u.y + u.z + u.w;
}
