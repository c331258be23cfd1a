typedef struct { uint state[4]; ulong count; uchar buffer[16]; } MD_CTX;
typedef uint block_t[4];
static void transform(uint state[4], const uchar *block)
{
  block_t x;
  for (int i = 0, j = 0; i < 4; i++, j += 4)
    x[i] = ((uint)block[j]) | (((uint)block[j + 1]) << 8) | (((uint)block[j + 2]) << 16) | (((uint)block[j + 3]) << 24);
  for (int i = 0; i < 4; i++) state[i] = rotate(state[i] + x[(i + 1) & 3], 7u) ^ x[i];
}
static void update(MD_CTX *ctx, __global const uchar *data, uint len)
{
  uint have = (uint)(ctx->count & 15);
  ctx->count += len;
  while (len--) {
    ctx->buffer[have++] = *data++;
    if (have == sizeof(ctx->buffer)) { transform(ctx->state, ctx->buffer); have = 0; }
  }
}
static void final(MD_CTX *ctx, __global uint *out)
{
  uint have = ctx->count & 15;
  ctx->buffer[have++] = 0x80;
  while (have < 16) ctx->buffer[have++] = 0;
  transform(ctx->state, ctx->buffer);
  for (int i = 0; i < 4; i++) out[i] = ctx->state[i];
}
__kernel void digest(__global const uchar *in, const uint stride, __global uint *out)
{
  MD_CTX ctx = { { 0x67452301, 0xefcdab89, 0x98badcfe, 0x10325476 }, 0 };
  uint g = get_global_id(0);
  update(&ctx, in + g * stride, 5 + g);
  update(&ctx, in + g * stride + 5 + g, stride - 5 - g);
  final(&ctx, out + g * 4);
}
