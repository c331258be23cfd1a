__kernel void k(__global int *a, ulong n)
{
  int i = get_global_id(0);
  if (i < n)
    a[i] = 0;
}
