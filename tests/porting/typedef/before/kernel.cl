typedef unsigned int u32;
__kernel void k(__global int *a)
{
  int i = get_global_id(0);
  u32 x = a[i];
  a[i] = x >> 1;
}
