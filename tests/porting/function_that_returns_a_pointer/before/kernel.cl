__global int *at(__global int *m, int i)
{
  return m + i;
}

__kernel void k(__global int *a)
{
  *at(a, get_global_id(0)) += 1;
}
