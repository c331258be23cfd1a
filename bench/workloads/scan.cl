__kernel void f(__global uint *a)
{
  __local uint t[256];
  int l = get_local_id(0);
  int d;
  uint v;
  t[l] = a[get_global_id(0)];
  barrier(CLK_LOCAL_MEM_FENCE);
  for (d = 1; d < 256; d *= 2) {
    v = t[l];
    if (l >= d)
      v += t[l - d];
    barrier(CLK_LOCAL_MEM_FENCE);
    t[l] = v;
    barrier(CLK_LOCAL_MEM_FENCE);
  }
  a[get_global_id(0)] = t[l];
}
