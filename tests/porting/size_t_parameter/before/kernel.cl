__kernel void k(__global int *a, size_t n)
{
  int i = get_global_id(0);
  if (i < n)
    a[i] = 0;
}
