__kernel void k(__global int *a, __global int *b)
{
  int i = get_global_id(0);
  int p = 0;
  while (a[p] != 11)
    p++;
  b[i] = p;
}
