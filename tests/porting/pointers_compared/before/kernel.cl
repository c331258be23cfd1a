__kernel void k(__global int *a, __global int *b)
{
  int i = get_global_id(0);
  int s = 0;
  __global int *end = a + 4;
  for (__global int *p = a; p < end; p++)
    s += *p;
  b[i] = s;
}
