__kernel void k(__global int *a)
{
  int i = get_global_id(0);
  unsigned long x = a[i];
  a[i] = x >> 63;
}
