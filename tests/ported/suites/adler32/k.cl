#define MOD_ADLER 65521u
typedef struct __attribute__((packed)) { ushort a, b; } adler_t;
adler_t adler_update(adler_t s, uchar byte)
{
  uint a = s.a, b = s.b;
  a = (a + byte) % MOD_ADLER;
  b = (b + a) % MOD_ADLER;
  adler_t r = { (ushort)a, (ushort)b };
  return r;
}
__kernel void adler(__global const uchar *data, const int chunk, __global uint *sums)
{
  adler_t s;
  s.a = 1; s.b = 0;
  for (int i = 0; i < chunk; i++) s = adler_update(s, data[get_global_id(0) * chunk + i]);
  sums[get_global_id(0)] = ((uint)s.b << 16) | s.a;
}
