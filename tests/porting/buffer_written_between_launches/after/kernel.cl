__kernel void k(__global int *a, __global const int *n)
{
  a[get_global_id(0)] *= n[0];
}
