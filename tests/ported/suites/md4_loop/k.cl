typedef unsigned int UINT4;
#define FF(a, b, c, d, x, s) { (a) += bitselect((d),(c),(b)) + (x); (a) = rotate((a), (uint)(s)); }
#define GG(a, b, c, d, x, s) { (a) += (((b) & (c)) | ((b) & (d)) | ((c) & (d))) + (x) + (UINT4)0x5a827999; (a) = rotate((a), (uint)s); }
enum { S11 = 3, S12 = 7, S13 = 11, S14 = 19, S21 = 3, S22 = 5, S23 = 9, S24 = 13 };
#define GETCHAR(buf, index) (((uchar*)(buf))[(index)])
#define PUTCHAR(buf, index, val) (buf)[(index)>>2] = ((buf)[(index)>>2] & ~(0xffU << (((index) & 3) << 3))) + ((val) << (((index) & 3) << 3))
__kernel void nt_hash(__global const uchar *keys, __global const uint *idx, __global uint *out)
{
  uint gid = get_global_id(0);
  uint base = idx[gid], len = idx[gid + 1] - base;
  uint block[16] = { 0 };
  uint i;
  for (i = 0; i < len; i++)
    PUTCHAR(block, 2 * i, keys[base + i]);
  PUTCHAR(block, 2 * i, 0x80U);
  block[14] = len << 4;
  uint a = 0x67452301, b = 0xefcdab89, c = 0x98badcfe, d = 0x10325476;
  for (i = 0; i < 16; i += 4) {
    FF(a, b, c, d, block[i], S11); FF(d, a, b, c, block[i + 1], S12);
    FF(c, d, a, b, block[i + 2], S13); FF(b, c, d, a, block[i + 3], S14);
  }
  for (i = 0; i < 4; i++) {
    GG(a, b, c, d, block[i], S21); GG(d, a, b, c, block[4 + i], S22);
    GG(c, d, a, b, block[8 + i], S23); GG(b, c, d, a, block[12 + i], S24);
  }
  uint x = 0;
  for (i = 0; i < 8; i++) x += GETCHAR(block, i);
  out[gid * 4] = a + 0x67452301; out[gid * 4 + 1] = b + 0xefcdab89;
  out[gid * 4 + 2] = c + x; out[gid * 4 + 3] = d + 0x10325476;
}
