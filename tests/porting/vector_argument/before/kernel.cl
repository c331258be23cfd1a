__kernel void k(__global int4 *a, int4 v)
{
  int i = get_global_id(0);
  a[i] += v;
}
