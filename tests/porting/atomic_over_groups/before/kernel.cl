__kernel void k(__global int *a, __global int *sums)
{
  int i = get_global_id(0);
  atomic_add(sums, a[i]);
}
