#define DEFAULT_ORDER 4
typedef struct knode { int location; int indices[DEFAULT_ORDER + 1]; int keys[DEFAULT_ORDER + 1]; bool is_leaf; int num_keys; } knode;
typedef struct record { int value; } record;
__constant ulong blake_iv[8] = { 0x6a09e667f3bcc908ULL, 0xbb67ae8584caa73bULL, 0x3c6ef372fe94f82bULL, 0xa54ff53a5f1d36f1ULL, 0x510e527fade682d1ULL, 0x9b05688c2b3e6c1fULL, 0x1f83d9abfb41bd6bULL, 0x5be0cd19137e2179ULL };
__constant uchar sigma[2][16] = { { 0, 1, 2, 3, 4, 5, 6, 7, 8, 9, 10, 11, 12, 13, 14, 15 }, { 14, 10, 4, 8, 9, 15, 13, 6, 1, 12, 0, 2, 11, 7, 5, 3 } };
static inline ulong rotr64(ulong x, int n) { return rotate(x, (ulong)(64 - n)); }
ulong rotr32(ulong x) { return as_ulong(as_uint2(x).s10); }
#define G(r, i, a, b, c, d) do { a = a + b + m[sigma[r][2 * i]]; d = rotr32(d ^ a); c = c + d; b = rotr64(b ^ c, 24); a = a + b + m[sigma[r][2 * i + 1]]; d = rotr64(d ^ a, 16); c = c + d; b = rotr64(b ^ c, 63); } while (0)
#define MIN(a, b) ((a) <= (b) ? (a) : (b))
#define IN_RANGE(x, min, max) ((x) >= (min) && (x) <= (max))
#define CLAMP_RANGE(x, min, max) x = (x < (min)) ? min : ((x > (max)) ? max : x)
__kernel void k(__global int *a, __global int *o, int n) {
    int i = get_global_id(0);
    ulong m[16], v[16];
    for (int j = 0; j < 16; j++) m[j] = ((ulong)a[j] << 32 | (uint)a[(j + i) & 63]);
    for (int j = 0; j < 8; j++) { v[j] = blake_iv[j]; v[j + 8] = blake_iv[j] ^ (j == 4 ? 128UL : 0UL); }
    for (int r = 0; r < 2; r++) { G(r, 0, v[0], v[4], v[8], v[12]); G(r, 1, v[1], v[5], v[9], v[13]); G(r, 4, v[0], v[5], v[10], v[15]); }
    ulong h = 0; for (int j = 0; j < 16; ++j) h ^= v[j] * (j + 1);
    o[i * 2] = h; o[i * 2 + 1] = h >> 32;
    knode nodes[3]; 
    for (int j = 0; j < 3; j++) { nodes[j].location = j; nodes[j].is_leaf = j == 2; nodes[j].num_keys = 4; for (int q = 0; q < 5; q++) { nodes[j].keys[q] = q * 20 + j; nodes[j].indices[q] = (q + j) % 3; } }
    int at = 0, depth = 0; __private knode *cur = nodes;
    while (!cur->is_leaf && depth++ < 4) { for (int q = 0; q < cur->num_keys; q++) if (cur->keys[q] <= i * 7 && cur->keys[q + 1] > i * 7) { at = cur->indices[q]; } cur = &nodes[at]; }
    int x = i - 8; CLAMP_RANGE(x, -3, 3);
    o[64 + i] = cur->location * 100 + depth * 10 + x + (IN_RANGE(i, 3, 6) ? MIN(i, 5) : 0);
    char4 t = as_char4(a[i]); short2 sh = upsample((char2)(t.x, t.y), as_uchar2(as_short(t.zw)));
    o[80 + i] = sh.x + sh.y + (t.x > t.y) + shuffle(t, (uchar4)(3, 2, 1, 0)).x + hadd(t, (char4)3).s2 + abs_diff(t.x, t.y) + mul_hi(a[i], a[i + 1]);
    __local int lc[8]; event_t e = async_work_group_copy(lc, a + get_group_id(0) * 8, 8, 0); wait_group_events(1, &e); e = async_work_group_copy(o + 128 + get_group_id(0) * 8, lc, (size_t)8, (event_t)0); wait_group_events(1, &e);
    int8 w8 = (int8)(vload4(0, a), (int4)(i)); w8.odd += w8.even.wzyx; w8.s0123 *= (int4)(1, -1, 2, -2); o[96 + i] = w8.s7 + w8.s1 - w8.hi.y + w8.lo.x;
    o[112 + i] = i ? o[64 + i] : 0;
}
