#define LIMBS 4
typedef struct { uint d[LIMBS]; } big;
typedef struct { big lo, hi; } wide;
uint add_carry(uint a, uint b, uint *carry)
{
  uint s = a + *carry; uint c = s < a; s += b; c |= s < b; *carry = c; return s;
}
wide mul(const big *a, const big *b)
{
  wide r = { { { 0 } }, { { 0 } } };
  uint t[2 * LIMBS] = { 0 };
  for (int i = 0; i < LIMBS; i++) {
    uint carry = 0;
    for (int j = 0; j < LIMBS; j++) {
      ulong p = (ulong)a->d[i] * b->d[j] + t[i + j] + carry;
      t[i + j] = (uint)p; carry = p >> 32;
    }
    t[i + LIMBS] = carry;
  }
  for (int i = 0; i < LIMBS; i++) { r.lo.d[i] = t[i]; r.hi.d[i] = t[i + LIMBS]; }
  return r;
}
big add(big a, big b, uint *c) { big r; *c = 0; for (int i = 0; i < LIMBS; i++) r.d[i] = add_carry(a.d[i], b.d[i], c); return r; }
__kernel void mulmod(__global const big *a, __global const big *b, __global big *out, __global uint *carry)
{
  const size_t i = get_global_id(0);
  big x = a[i], y = b[i];
  wide w = mul(&x, &y);
  uint c;
  out[i] = add(w.lo, w.hi, &c);
  carry[i] = c;
}
