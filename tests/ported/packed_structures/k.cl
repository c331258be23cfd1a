#ifndef N
#define N 16
#endif
#define REPEAT4(x) x x x x
#pragma OPENCL EXTENSION cl_khr_byte_addressable_store : enable
typedef uint u32; typedef uchar u8; typedef ulong u64;
typedef struct __attribute__((packed)) pw { u32 i[4]; u32 pw_len; } pw_t;
typedef struct digest { u32 digest_buf[4]; } digest_t;
#define DECLSPEC inline static
__constant u32 k_sha256[4] = { 0x428a2f98u, 0x71374491u, 0xb5c0fbcfu, 0xe9b5dba5u };
#define SHIFT_RIGHT_32(x,n) ((x) >> (n))
#define hc_rotl32_S(a,n) rotate(a, (u32)(n))
#define SHA256_S0(x) (hc_rotl32_S((x), 25u) ^ hc_rotl32_S((x), 14u) ^ SHIFT_RIGHT_32((x), 3u))
DECLSPEC u32 hc_swap32(const u32 v) { return (as_uint(as_uchar4(v).wzyx)); }
DECLSPEC u32 hc_bytealign(const u32 a, const u32 b, const int c) { const int c_mod_4 = c & 3; return (u32)((((u64)a << 32) | (u64)b) >> (c_mod_4 * 8)); }
DECLSPEC void append_helper(u32 *r, const u32 v, const int lid) { switch (lid & 3) { case 0: r[0] |= v; break; case 1: r[1] |= v; break; case 2: r[2] |= v; break; default: r[3] |= v; } }
DECLSPEC int find_hash(const u32 *digest, const u32 digests_cnt, __global const digest_t *digests_buf) {
  for (u32 l = 0, r = digests_cnt; r; r >>= 1) {
    const u32 m = r >> 1; const u32 c = l + m;
    const int cmp = digests_buf[c].digest_buf[0] > digest[0] ? -1 : digests_buf[c].digest_buf[0] < digest[0] ? 1 : 0;
    if (cmp > 0) { l += m; r--; }
    if (cmp == 0) return c;
  }
  return -1;
}
DECLSPEC void transform(__private u32 *digest, __global const pw_t *p) {
  u32 a = digest[0], b = digest[1]; const pw_t pw = *p;
  for (int i = 0; i < 4; ++i) { a += hc_swap32(pw.i[i]) + k_sha256[i] + SHA256_S0(b); b ^= hc_bytealign(a, b, i) + (pw.pw_len & 63); }
  REPEAT4(a ^= b << 1; b = b + a;)
  digest[0] += a; digest[1] += b;
}
__kernel void k(__global pw_t *pws, __global u32 *out, const u32 cnt) {
  const u64 gid = get_global_id(0);
  if (gid >= 12) return;
  u32 digest[4] = { 0 }; digest[2] = gid;
  transform(digest, &pws[gid & 7]);
  append_helper(digest, 0x80u, (int)gid);
  pw_t local_pw = pws[gid % 3]; local_pw.i[gid & 3] ^= 0xffff; pws[gid + 0].pw_len = local_pw.i[1] & 15;
  u32 s = 0; for (int i = 0; i < 16; i++) s = s * 31 + (digest[i / 4] >> 8 * (i & 3) & 255);
  out[gid * 4] = digest[0]; out[gid * 4 + 1] = s; out[gid * 4 + 2] = find_hash(digest, cnt, (__global const digest_t *)pws); out[gid * 4 + 3] = digest[3] ^ digest[1];
}
