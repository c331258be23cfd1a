__kernel void k(__global int *a)
{
  int i = get_global_id(0);
  a[get_global_id(0) - get_global_offset(0)] += i;
}
