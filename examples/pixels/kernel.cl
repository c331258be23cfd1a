__kernel void blend(__global uchar4 *a, __global const uchar4 *b, uchar weight)
{
  int i = get_global_id(0);
  uchar4 under = a[i], over = b[i];
  ushort4 sum = (ushort4)(under.x, under.y, under.z, 0) * (255 - weight)
      + (ushort4)(over.x, over.y, over.z, 0) * weight;
  sum /= 255;
  a[i] = (uchar4)(sum.x, sum.y, sum.z, max(under.w, over.w));
}
