#define ROL2(v, n) (uint2)((v).x << (n) | (v).y >> (32 - (n)), (v).y << (n) | (v).x >> (32 - (n)))
#define ROLX(v, n) ((n) < 32 ? ROL2(v, n) : ROL2((v).yx, (n) - 32))
__constant const uint2 RC[4] = { (uint2)(1, 0), (uint2)(0x8082, 0), (uint2)(0x808a, 0x80000000), (uint2)(0x80008000, 0x80000000) };
static void chi(uint2 *a, const uint n, const uint2 t)
{
  a[n] = bitselect(a[n] ^ t, a[n], t.yx);
}
static void theta(uint2 *s, uint r)
{
  uint2 c[5];
  for (int x = 0; x < 5; x++) c[x] = s[x] ^ s[x + 5];
  for (uint x = 0; x < 5; ++x) {
    uint2 d = c[(x + 4) % 5] ^ ROL2(c[(x + 1) % 5], 1);
    s[x] ^= d; s[x + 5] ^= d;
  }
  s[0] ^= RC[r & 3];
}
__kernel void k(__global uint2 *restrict out, __global uint2 const *g_in)
{
  uint2 state[10];
  uint const gid = get_global_id(0);
  for (uint i = 0; i != 10; ++i) state[i] = g_in[gid * 10 + i];
  for (uint r = 0; r < 3; ++r) { theta(state, r); chi(state, r, state[r + 1]); }
  #define copy(dst, src, count) for (uint i = 0; i != count; ++i) { (dst)[i] = (src)[i]; }
  copy(out + gid * 4, state, 4)
  out[gid * 4] ^= ROLX(state[5], 40) + as_uint2(as_ulong(state[6]) * 3UL);
}
