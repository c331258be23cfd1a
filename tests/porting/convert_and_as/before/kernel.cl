__kernel void k(__global int *a)
{
  int i = get_global_id(0);
  a[i] = convert_char(a[i] * 50) + (as_uint(a[i]) >> 28);
}
