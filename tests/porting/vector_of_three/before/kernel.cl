__kernel void k(__global int3 *a)
{
  int i = get_global_id(0);
  a[i] = a[i] * 3;
}
