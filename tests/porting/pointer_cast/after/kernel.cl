__kernel void k(__global int *base)
{
  int i = get_global_id(0);
  base[i] += 1;
}
