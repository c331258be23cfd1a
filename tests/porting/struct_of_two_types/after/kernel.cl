__kernel void k(__global int *a, __global uchar *steps)
{
  int i = get_global_id(0);
  a[2 * i] += steps[8 * i + 4];
}
