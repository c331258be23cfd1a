__kernel void k(__global uchar *base)
{
  int i = get_global_id(0);
  *(__global int *)(base + 4 * i) += 1;
}
