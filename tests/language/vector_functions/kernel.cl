__kernel void k(__global char4 *a, __global uchar4 *b, __global int2 *c)
{
  char4 t = a[0];
  char4 u = a[1];
  a[2] = min(t, u) + max(t, u);
  a[3] = clamp(t, (char4)(-5), (char4)(5));
  b[0] = abs(t);
  b[1] = abs_diff(t, u);
  a[4] = rotate(t, u);
  a[5] = add_sat(t, t) - sub_sat(u, t);
  c[0] = mul_hi(c[1], c[1]) - c[1];
  c[1] = clz(c[1]) + mul_hi(c[1], c[0]) + rotate(c[0], c[1]);
}
