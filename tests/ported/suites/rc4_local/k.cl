#define SWAP(a, b) { uchar t = a; a = b; b = t; }
typedef struct { uchar S[256]; uchar wtf_its; } RC4_KEY;
static void rc4_init(__local RC4_KEY *rc4, const uint *data)
{
  for (uint i = 0; i < 256; i++) rc4->S[i] = i;
  uint j = 0;
  for (uint i = 0; i < 256; i++) {
    j = (j + rc4->S[i] + ((const uchar *)data)[i & 15]) & 255;
    SWAP(rc4->S[i], rc4->S[j]);
  }
}
__kernel void rc4(__global const uint4 *keys, __global uint *out)
{
  __local RC4_KEY rc4_keys[2];
  const uint lid = get_local_id(0), gid = get_global_id(0);
  __local RC4_KEY *rc4 = &rc4_keys[lid];
  uint data[4];
  data[0] = keys[gid].x; data[1] = keys[gid].y; data[2] = keys[gid].z; data[3] = keys[gid].w;
  rc4_init(rc4, data);
  uchar i = 0, j = 0;
  uint w = 0;
  for (int n = 0; n < 4; n++) {
    i++; j += rc4->S[i];
    SWAP(rc4->S[i], rc4->S[j]);
    w |= (uint)rc4->S[(uchar)(rc4->S[i] + rc4->S[j])] << (8 * n);
  }
  out[gid] = w;
}
