#define PHILOX_M4x32_0 0xD2511F53u
#define PHILOX_M4x32_1 0xCD9E8D57u
struct r123array4x32 { uint v[4]; };
struct r123array2x32 { uint v[2]; };
typedef struct r123array4x32 philox4x32_ctr_t;
typedef struct r123array2x32 philox4x32_key_t;
typedef struct r123array2x32 philox4x32_ukey_t;
enum { philox4x32_rounds = 10 };
inline uint mulhilo32(uint a, uint b, uint *hip) { *hip = mul_hi(a, b); return a * b; }
inline struct r123array2x32 _philox4x32bumpkey(struct r123array2x32 key) { key.v[0] += 0x9E3779B9u; key.v[1] += 0xBB67AE85u; return key; }
inline struct r123array4x32 _philox4x32round(struct r123array4x32 ctr, struct r123array2x32 key)
{
  uint hi0; uint hi1;
  uint lo0 = mulhilo32(PHILOX_M4x32_0, ctr.v[0], &hi0);
  uint lo1 = mulhilo32(PHILOX_M4x32_1, ctr.v[2], &hi1);
  struct r123array4x32 out = {{hi1 ^ ctr.v[1] ^ key.v[0], lo1, hi0 ^ ctr.v[3] ^ key.v[1], lo0}};
  return out;
}
inline philox4x32_ctr_t philox4x32_R(unsigned int R, philox4x32_ctr_t ctr, philox4x32_key_t key)
{
  if (R > 0) { ctr = _philox4x32round(ctr, key); }
  if (R > 1) { key = _philox4x32bumpkey(key); ctr = _philox4x32round(ctr, key); }
  if (R > 2) { key = _philox4x32bumpkey(key); ctr = _philox4x32round(ctr, key); }
  return ctr;
}
#define philox4x32(c, k) philox4x32_R(philox4x32_rounds, c, k)
__kernel void counthits(unsigned n, __global uint4 *out)
{
  unsigned tid = get_global_id(0);
  philox4x32_key_t k = {{tid, 0xdecafbad}};
  philox4x32_ctr_t c = {{0, 0xf00dcafe, 0xdeadbeef, 0xbeeff00d}};
  uint4 acc = 0;
  while (c.v[0] < n) {
    union { philox4x32_ctr_t c; uint4 i; } u;
    c.v[0]++;
    u.c = philox4x32(c, k);
    acc ^= u.i;
  }
  out[tid] = acc;
}
