__kernel void k(__global int4 *a)
{
  int i = get_global_id(0);
  int4 below = a[i] < 0;
  if (below.x | below.y | below.z | below.w)
    a[i] = (int4)(0);
}
