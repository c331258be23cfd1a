__kernel void k(__global int4 *a)
{
  int i = get_global_id(0);
  int4 v = a[i];
  a[i] = v.wzyx;
}
