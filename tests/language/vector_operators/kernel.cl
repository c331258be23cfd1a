__kernel void k(__global uchar4 *a, __global char4 *b, __global long2 *c)
{
  uchar4 t = a[0];
  uchar4 u = a[1];
  a[2] = (t + u) * (t - u) / (uchar4)(3);
  a[3] = (t << u) ^ (t >> 9) ^ ~u;
  a[4] = -t % (uchar4)(7, 10, 100, 255) | (u & 12);
  b[0] = (t < u) + (t >= u);
  b[1] = (t == u) - (u != 9);
  b[2] = b[0] >> 1;
  c[0] = c[1] << c[1] >> 3;
  c[1] = (c[0] > 0) & 5;
  t += u;
  t <<= (uchar4)(1, 9, 17, 4);
  t /= u;
  a[5] = t;
}
