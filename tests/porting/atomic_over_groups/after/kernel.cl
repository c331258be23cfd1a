__kernel void k(__global int *a, __global int *parts)
{
  int i = get_global_id(0);
  __local int part[2];
  int l = get_local_id(0);
  part[l] = a[i];
  barrier(CLK_LOCAL_MEM_FENCE);
  if (l == 0)
    parts[get_group_id(0)] = part[0] + part[1];
}
__kernel void join(__global int *parts, int groups, __global int *sums)
{
  for (int g = 0; g < groups; g++)
    sums[0] += parts[g];
}
