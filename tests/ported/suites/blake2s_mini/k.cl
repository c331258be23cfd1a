__constant uchar sigma[2][16] = {
  { 0, 1, 2, 3, 4, 5, 6, 7, 8, 9, 10, 11, 12, 13, 14, 15 },
  { 14, 10, 4, 8, 9, 15, 13, 6, 1, 12, 0, 2, 11, 7, 5, 3 } };
__constant static const uint iv[8] = { 0x6A09E667, 0xBB67AE85, 0x3C6EF372, 0xA54FF53A,
  0x510E527F, 0x9B05688C, 0x1F83D9AB, 0x5BE0CD19 };
#define rotr32(w,c) ( ( (w) >> (c) ) | ( (w) << ( 32 - (c) ) ) )
#define G(r,i,a,b,c,d) \
  do { \
    a = a + b + m[sigma[r][2*i+0]]; \
    d = rotr32(d ^ a, 16); \
    c = c + d; \
    b = rotr32(b ^ c, 12); \
    a = a + b + m[sigma[r][2*i+1]]; \
    d = rotr32(d ^ a, 8); \
    c = c + d; \
    b = rotr32(b ^ c, 7); \
  } while(0)
#define RND(r)  \
  do { \
    G(r,0,v[ 0],v[ 4],v[ 8],v[12]); G(r,1,v[ 1],v[ 5],v[ 9],v[13]); \
    G(r,2,v[ 2],v[ 6],v[10],v[14]); G(r,3,v[ 3],v[ 7],v[11],v[15]); \
    G(r,4,v[ 0],v[ 5],v[10],v[15]); G(r,5,v[ 1],v[ 6],v[11],v[12]); \
    G(r,6,v[ 2],v[ 7],v[ 8],v[13]); G(r,7,v[ 3],v[ 4],v[ 9],v[14]); \
  } while(0)
typedef struct blake2s_state__
{
  uint h[8];
  uint t[2];
  uint f[2];
  uchar buf[64];
  size_t buflen;
  uchar last_node;
} blake2s_state;
static void compress(blake2s_state *S, const __global uchar *in)
{
  uint m[16]; uint v[16];
  for (size_t i = 0; i < 16; ++i)
    m[i] = (uint)in[4*i] | ((uint)in[4*i+1] << 8) | ((uint)in[4*i+2] << 16) | ((uint)in[4*i+3] << 24);
  for (size_t i = 0; i < 8; ++i) v[i] = S->h[i];
  v[8] = iv[0]; v[9] = iv[1]; v[10] = iv[2]; v[11] = iv[3];
  v[12] = S->t[0] ^ iv[4]; v[13] = S->t[1] ^ iv[5]; v[14] = S->f[0] ^ iv[6]; v[15] = S->f[1] ^ iv[7];
  RND(0); RND(1);
  for (size_t i = 0; i < 8; ++i) S->h[i] = S->h[i] ^ v[i] ^ v[i + 8];
}
__kernel void blake2s(__global uchar *in, __global uint *out)
{
  blake2s_state S = { { 0 }, { 64, 0 }, { ~0U, 0 } };
  for (int i = 0; i < 8; i++) S.h[i] = iv[i];
  S.h[0] ^= 0x01010000 ^ 32;
  S.buflen = 0; S.last_node = 0;
  compress(&S, in + get_global_id(0) * 64);
  for (int i = 0; i < 8; i++) out[get_global_id(0) * 8 + i] = S.h[i];
}
