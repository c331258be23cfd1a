typedef struct { uint mul, add; uchar shift; } lcg_t;
typedef struct { uint4 seed; lcg_t lcg; } params_t;
uint draw(uint *s, const lcg_t g) { *s = *s * g.mul + g.add; return *s >> g.shift; }
__kernel void rng(__global uint *out, const params_t p, const uint n)
{
  uint s = p.seed.y ^ get_global_id(0);
  for (uint i = 0; i < n; ++i) out[get_global_id(0) * n + i] = draw(&s, p.lcg);
}
