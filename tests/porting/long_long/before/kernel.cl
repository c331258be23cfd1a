__kernel void k(__global int *a)
{
  int i = get_global_id(0);
  long long x = (long long)a[i] * 1000000000;
  a[i] = x >> 20;
}
