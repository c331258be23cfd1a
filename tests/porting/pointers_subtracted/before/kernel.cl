__kernel void k(__global int *a, __global int *b)
{
  int i = get_global_id(0);
  __global int *p = a;
  while (*p != 11)
    p++;
  b[i] = p - a;
}
