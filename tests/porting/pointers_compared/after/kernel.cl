__kernel void k(__global int *a, __global int *b)
{
  int i = get_global_id(0);
  int s = 0;
  for (int p = 0; p < 4; p++)
    s += a[p];
  b[i] = s;
}
