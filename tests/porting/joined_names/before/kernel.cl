#define SUM(side) side##_sum
__kernel void k(__global int *a)
{
  int i = get_global_id(0);
  int left_sum = a[i];
  a[i] = SUM(left) * 2;
}
