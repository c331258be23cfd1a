__kernel void k(__global int *a)
{
  __global int *p;
  p = a + get_global_id(0);
  *p += 1;
}
