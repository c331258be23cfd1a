__kernel void k(__global int *from, __global int *to)
{
  int i = get_global_id(0);
  to[i] = from[i] * 3;
}
