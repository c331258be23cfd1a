__kernel void k(__global int *a, int slope, int start)
{
  int i = get_global_id(0);
  a[i] = slope * a[i] + start;
}
