__kernel void mix(__global const int *a, __global const int *b, __global int *o, __global ulong *l)
{
  int i = get_global_id(0), x = a[i], y = b[i];
  __global int *r = o + i * 16;
  r[0] = hadd(x, y); r[1] = rhadd(x, y); r[2] = mul_hi(x, y); r[3] = add_sat(x, y); r[4] = sub_sat(x, y);
  r[5] = abs_diff(x, y); r[6] = popcount(x); r[7] = clz(y); r[8] = rotate(x, 5); r[9] = mad_hi(x, y, 3);
  r[10] = mad_sat(x, y, 3); r[11] = max(x, y) - min(x, 0); r[12] = clamp(x, -100, 100); r[13] = upsample((short)x, (ushort)y);
  r[14] = select(x, y, x > y); r[15] = bitselect(x, y, 0x0F0F0F0F) + mul24(x & 0xFFF, y & 0xFFF) + (int)get_work_dim();
  l[i] = upsample((uint)x, (uint)y) ^ mul_hi((ulong)x, (ulong)y) ^ as_ulong((int2)(x, y)) ^ abs((long)x << 20) ^ convert_ulong(x) ^ convert_long_sat(1UL << 63);
}
