__kernel void cv(__global uint *a, __global uchar *b, __local uint *l)
{
  const uint i = get_global_id(0), k = get_local_id(0);
  uint4 v = *(__global uint4 *)(a + 4 * i);
  *((__global uint2 *)&a[4 * i + 2]) = v.xy + v.zw;
  uint2 w = ((__global uint2 *)a)[2 * i];
  *(__local uint4 *)(l + 4 * k) = v.wzyx;
  barrier(CLK_LOCAL_MEM_FENCE);
  uint4 n = vload4(get_local_size(0) - 1 - k, l);
  uint4 u = as_uint4(vload16(i, b));
  vstore4(convert_uchar4(n >> 24), 4 * i, b);
  vstore2((ushort2)(w.x, w.y), 0, (__global ushort *)(b + 16 * i + 4));
  *(__global uint *)(b + 16 * i + 8) = u.z ^ n.y;
  *(__global ulong *)&b[16 * i + 8] += 0x100000001UL;
}
