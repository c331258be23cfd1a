__kernel void k(__global int *a)
{
  int i = get_global_id(0);
  __local int t[4];
  t[i] = a[i];
  barrier(CLK_LOCAL_MEM_FENCE);
  a[i] = t[3 - i];
}
