#define ROTL(x, n) rotate((x), (uint)(n))
#define F0(b,c,d) (((b) & (c)) | (~(b) & (d)))
#define F1(b,c,d) ((b) ^ (c) ^ (d))
#define F2(b,c,d) (((b) & (c)) | ((b) & (d)) | ((c) & (d)))
#define SWAP32(x) (as_uint(as_uchar4(x).wzyx))
typedef struct {
  uint h[5];
  uint w[16];
} sha1_ctx;

inline void sha1_init(sha1_ctx *ctx)
{
  ctx->h[0] = 0x67452301u; ctx->h[1] = 0xefcdab89u; ctx->h[2] = 0x98badcfeu;
  ctx->h[3] = 0x10325476u; ctx->h[4] = 0xc3d2e1f0u;
}

void sha1_transform(sha1_ctx *ctx)
{
  uint a = ctx->h[0], b = ctx->h[1], c = ctx->h[2], d = ctx->h[3], e = ctx->h[4];
  uint w[80];
  #pragma unroll
  for (int t = 0; t < 16; t++) w[t] = SWAP32(ctx->w[t]);
  #pragma unroll 16
  for (int t = 16; t < 80; ++t) w[t] = ROTL(w[t-3] ^ w[t-8] ^ w[t-14] ^ w[t-16], 1);
  for (int t = 0; t < 80; t++) {
    uint f, k;
    if (t < 20) { f = F0(b,c,d); k = 0x5a827999u; }
    else if (t < 40) { f = F1(b,c,d); k = 0x6ed9eba1u; }
    else if (t < 60) { f = F2(b,c,d); k = 0x8f1bbcdcu; }
    else { f = F1(b,c,d); k = 0xca62c1d6u; }
    uint tmp = ROTL(a, 5) + f + e + k + w[t];
    e = d; d = c; c = ROTL(b, 30); b = a; a = tmp;
  }
  ctx->h[0] += a; ctx->h[1] += b; ctx->h[2] += c; ctx->h[3] += d; ctx->h[4] += e;
}

__kernel void sha1_kernel(__global const uint *restrict msg, __global uint *restrict digest)
{
  const size_t gid = get_global_id(0);
  sha1_ctx ctx;
  sha1_init(&ctx);
  for (uint i = 0; i < 16; i++) ctx.w[i] = msg[gid * 16 + i];
  sha1_transform(&ctx);
  for (uint i = 0; i < 5; i++) digest[gid * 5 + i] = SWAP32(ctx.h[i]);
}
