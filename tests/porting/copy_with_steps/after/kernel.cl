__kernel void k(__global int *a)
{
  int i = get_global_id(0);
  __local int t[2];
  if (i < 2)
    t[i] = a[2 * i];
  barrier(CLK_LOCAL_MEM_FENCE | CLK_GLOBAL_MEM_FENCE);
  a[i] = t[i & 1];
}
