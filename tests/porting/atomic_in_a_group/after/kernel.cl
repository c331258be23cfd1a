__kernel void k(__global int *a, __global int *sums)
{
  int i = get_global_id(0);
  __local int part[4];
  part[i] = a[i];
  barrier(CLK_LOCAL_MEM_FENCE);
  if (i == 0) {
    int s = 0;
    for (int n = 0; n < 4; n++)
      s += part[n];
    sums[0] += s;
  }
}
