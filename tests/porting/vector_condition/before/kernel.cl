__kernel void k(__global int4 *a)
{
  int i = get_global_id(0);
  if (any(a[i] < 0))
    a[i] = (int4)(0);
}
