#define RADIUS 1
__constant int coeff[3][3] = { {1, 2, 1}, {2, 4, 2}, {1, 2, 1} };
__kernel void gauss(__global const uchar4 *src, __global uchar4 *dst, const int2 dims)
{
  const int2 pos = (int2)(get_global_id(0), get_global_id(1));
  if (any(pos >= dims)) return;
  int4 sum = 0;
  for (int dy = -RADIUS; dy <= RADIUS; ++dy)
    for (int dx = -RADIUS; dx <= RADIUS; ++dx) {
      int2 q = clamp(pos + (int2)(dx, dy), (int2)(0), dims - 1);
      sum += convert_int4(src[q.y * dims.x + q.x]) * coeff[dy + RADIUS][dx + RADIUS];
    }
  dst[mad24(pos.y, dims.x, pos.x)] = convert_uchar4_sat(sum / 16);
}
