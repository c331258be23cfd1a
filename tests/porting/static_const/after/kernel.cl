__constant int t[2] = { 1, 2 };
__kernel void k(__global int *a)
{
  int i = get_global_id(0);
  a[i] *= t[i % 2];
}
