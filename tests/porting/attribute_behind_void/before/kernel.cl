__kernel void __attribute__((reqd_work_group_size(4, 1, 1))) k(__global int *a)
{
  int i = get_global_id(0);
  a[i] += 1;
}
