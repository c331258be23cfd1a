__kernel void k(__global int *a)
{
  const int i = get_global_id(0);
  a[i] += i;
}
