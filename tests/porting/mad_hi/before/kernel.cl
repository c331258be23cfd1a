__kernel void k(__global int *a)
{
  int i = get_global_id(0);
  a[i] = mad_hi(a[i], 1 << 20, 9);
}
