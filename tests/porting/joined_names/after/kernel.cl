__kernel void k(__global int *a)
{
  int i = get_global_id(0);
  int left_sum = a[i];
  a[i] = left_sum * 2;
}
