#define DELTA 0x9E3779B9
inline void encipher(unsigned int num_rounds, uint *restrict v, __constant uint *restrict key)
{
  unsigned int i;
  uint v0 = v[0], v1 = v[1], sum = 0, delta = DELTA;
  for (i = 0; i < num_rounds; i++) {
    v0 += (((v1 << 4) ^ (v1 >> 5)) + v1) ^ (sum + key[sum & 3]);
    sum += delta;
    v1 += (((v0 << 4) ^ (v0 >> 5)) + v0) ^ (sum + key[(sum >> 11) & 3]);
  }
  v[0] = v0; v[1] = v1;
}
__kernel void xtea(__global uchar *data, __constant uint *key, const ulong nonce)
{
  const uint g = get_global_id(0);
  union { ulong l; uint w[2]; uchar b[8]; } u;
  u.l = nonce ^ g;
  encipher(8, u.w, key);
  for (int i = 0; i < 8; ++i) data[8 * g + i] ^= u.b[i];
}
