#define QR(a, b, c, d) \
  a += b; d = rotate(d ^ a, (uint4)(16)); \
  c += d; b = rotate(b ^ c, (uint4)(12)); \
  a += b; d = rotate(d ^ a, (uint4)(8)); \
  c += d; b = rotate(b ^ c, (uint4)(7))
__constant uint4 SIGMA = (uint4)(0x61707865, 0x3320646e, 0x79622d32, 0x6b206574);
__kernel void chacha(__global const uint4 *key, __global uint16 *out, ulong counter, uint2 nonce)
{
  ulong c = counter + get_global_id(0);
  uint4 a = SIGMA, b = key[0], k1 = key[1], cc = k1;
  uint4 d = (uint4)((uint)c, (uint)(c >> 32), nonce);
  const uint4 d0 = d;
  for (int i = 0; i < 4; i++) {
    QR(a, b, cc, d);
    b = b.yzwx; cc = cc.zwxy; d = d.wxyz;
    QR(a, b, cc, d);
    b = b.wxyz; cc = cc.zwxy; d = d.yzwx;
  }
  uint16 r;
  r.lo.lo = a + SIGMA; r.lo.hi = b + key[0]; r.hi.lo = cc + k1; r.s89AB = cc + key[1]; r.sCDEF = d + d0;
  out[get_global_id(0)] = r;
}
