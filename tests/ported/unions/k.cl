typedef union { ulong u64[4]; uint u32[8]; uchar u8[32]; uint4 v[2]; } hash32_t;
typedef struct { uint nonce; hash32_t h; } work_t;
hash32_t fnv(hash32_t x, uint m) { for (int i = 0; i < 8; i++) x.u32[i] = (x.u32[i] * 0x01000193U) ^ m; return x; }
void mix(hash32_t *s, __global const hash32_t *dag) { for (int i = 0; i < 4; i++) s->u64[i] ^= dag->u64[3 - i] >> i; s->u8[5] += 77; }
__kernel void k(__global hash32_t *dag, __global hash32_t *out, uint n)
{
  __local hash32_t share[8];
  uint i = get_global_id(0), l = get_local_id(0);
  hash32_t s = dag[i & 7], z = { { 1, 2 } };
  s = fnv(s, i); mix(&s, dag + (i * 3 & 7));
  work_t w; w.nonce = n; w.h = s; w.h.v[1] += (uint4)(i, 1, 2, 3); w.h.u8[7]--;
  share[l] = w.h; barrier(CLK_LOCAL_MEM_FENCE);
  for (int j = 0; j < 4; j++) s.u64[j] += share[(l + j) & 7].u64[j] + z.u32[j];
  out[i] = s; out[i].u32[2] ^= w.nonce;
}
