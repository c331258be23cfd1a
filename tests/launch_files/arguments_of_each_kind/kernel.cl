__kernel void k(__global int *a, __global int *c, __local int *l, char n)
{
  int i = get_local_id(0);
  l[i] = n * (i + 1);
  barrier(CLK_LOCAL_MEM_FENCE);
  a[get_global_id(0)] += l[1 - i];
  c[get_global_id(0)] -= l[1 - i];
}
