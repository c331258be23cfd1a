__kernel void f(__global const uint *a, __global uint *o)
{
  __local uint t[16][17];
  int lx = get_local_id(0), ly = get_local_id(1), gx = get_group_id(0), gy = get_group_id(1);
  t[ly][lx] = a[(gy * 16 + ly) * N + gx * 16 + lx];
  barrier(CLK_LOCAL_MEM_FENCE);
  o[(gx * 16 + ly) * N + gy * 16 + lx] = t[lx][ly];
}
