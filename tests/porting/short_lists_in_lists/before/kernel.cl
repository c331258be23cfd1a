__constant int t[2][2] = { { 1 }, { 3, 4 } };
__kernel void k(__global int *a)
{
  int i = get_global_id(0);
  a[i] += t[i / 2][i % 2];
}
