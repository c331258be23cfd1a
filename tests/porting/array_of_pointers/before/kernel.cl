__kernel void k(__global int *a)
{
  int i = get_global_id(0);
  __global int *part[2] = { a, a + 2 };
  part[i & 1][i >> 1] += i;
}
