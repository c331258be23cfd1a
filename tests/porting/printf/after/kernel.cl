__kernel void k(__global int *a, __global int *seen)
{
  int i = get_global_id(0);
  seen[i] = a[i] * a[i];
}
