__kernel void k(__global int *a, __global const uint2 *b, __global uchar *o, int n, int2 v, __local int *l, __constant short *c)
{
  int i = get_global_id(0);
  l[get_local_id(0)] = i;
  barrier(CLK_LOCAL_MEM_FENCE);
  a[i] = a[i] * n + b[i].y + v.y + l[0] + c[0];
  o[i] = i + get_work_dim();
}
