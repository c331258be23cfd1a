__kernel void k(__global int *a)
{
  __const int i = get_global_id(0);
  a[i] += i;
}
