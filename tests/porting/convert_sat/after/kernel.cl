__kernel void k(__global int *a)
{
  int i = get_global_id(0);
  a[i] = (uchar)clamp((long)(a[i] * 40), 0L, 255L);
}
