__kernel void k(__global int *a, int n, __local int *t)
{
  int i = get_global_id(0);
  t[0] = a[i];
  a[i] = t[0] * n + N;
}
