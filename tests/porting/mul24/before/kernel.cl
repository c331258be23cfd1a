__kernel void k(__global int *a)
{
  int i = get_global_id(0);
  a[i] = mul24(a[i], 3) + mad24(a[i], 2, 1);
}
