__kernel void k(__global int *a)
{
  int i = get_global_id(0);
  __constant int t[2] = { 1, 2 };
  a[i] *= t[i % 2];
}
