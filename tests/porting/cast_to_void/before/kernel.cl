__kernel void k(__global int *a, int n)
{
  int i = get_global_id(0);
  (void)n;
  a[i] += 1;
}
