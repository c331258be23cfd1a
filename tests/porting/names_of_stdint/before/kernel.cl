__kernel void k(__global int *a)
{
  int i = get_global_id(0);
  uint8_t x = a[i];
  a[i] = x;
}
