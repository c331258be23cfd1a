int4 twice(int4 v)
{
  return v * 2;
}
__kernel void k(__global int4 *a)
{
  int i = get_global_id(0);
  a[i] = twice(a[i]) + 1;
}
