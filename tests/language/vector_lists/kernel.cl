__kernel void k(__global uchar16 *a, __global short2 *b)
{
  uchar4 t = (uchar4)(1, 2, 3, 4);
  uchar8 u = (uchar8)(t, t.wz, 5, 6);
  a[0] = (uchar16)(u, t, (uchar2)(7), 300, -1);
  short2 v = (short2)((3, 4));
  b[0] = v + (short2)(b[1].y, 32767);
  b[1] = (short2)(-b[0].x);
}
