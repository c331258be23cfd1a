// Packed RGBA as in box filters: unpack to four, sum, pack.
inline uint4 unpack(uint c) { uint4 r; r.x = c & 0xff; r.y = (c >> 8) & 0xff; r.z = (c >> 16) & 0xff; r.w = (c >> 24) & 0xff; return r; }
inline uint rgbaToInt(uint4 c) { return (c.w << 24) + (c.z << 16) + (c.y << 8) + c.x; }
__kernel void rows(__global const uint *in, __global uint *out, unsigned w, unsigned h, int r)
{
  const uint y = get_global_id(0);
  if (y >= h) return;
  __global const uint *id = in + y * w;
  __global uint *od = out + y * w;
  uint4 t = (uint4){0, 0, 0, 0};
  const uint scale = (1 << 16) / (2 * r + 1);
  t = unpack(id[0]) * (uint4)r;
  for (int x = 0; x < (r + 1); x++) t += unpack(id[x]);
  od[0] = rgbaToInt(t * scale >> 16);
  for (int x = 1; x < (r + 1); x++) { t += unpack(id[x + r]); t -= unpack(id[0]); od[x] = rgbaToInt(t * scale >> 16); }
  for (int x = r + 1; x < w - r; x++) { t += unpack(id[x + r]); t -= unpack(id[x - r - 1]); od[x] = rgbaToInt((t * scale) >> 16u); }
  for (int x = w - r; x < w; x++) { t += unpack(id[w - 1]); t -= unpack(id[x - r - 1]); od[x] = rgbaToInt((t * scale) >> 16); }
}
