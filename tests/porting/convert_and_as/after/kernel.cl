__kernel void k(__global int *a)
{
  int i = get_global_id(0);
  a[i] = (char)(a[i] * 50) + ((uint)a[i] >> 28);
}
