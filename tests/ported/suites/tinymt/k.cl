#define TINYMT32_SH0 1
#define TINYMT32_SH1 10
#define TINYMT32_SH8 8
#define TINYMT32_MASK 0x7fffffffU
#define MIN_LOOP 8
typedef struct TINYMT32WP_T {
    uint s0; uint s1; uint s2; uint s3;
    uint mat1; uint mat2; uint tmat;
} tinymt32wp_t;
typedef tinymt32wp_t tinymt32_t;
inline static void tinymt32_next_state(tinymt32wp_t *tiny)
{
    uint x, y;
    y = tiny->s3;
    x = (tiny->s0 & TINYMT32_MASK) ^ tiny->s1 ^ tiny->s2;
    x ^= (x << TINYMT32_SH0);
    y ^= (y >> TINYMT32_SH0) ^ x;
    tiny->s0 = tiny->s1;
    tiny->s1 = tiny->s2;
    tiny->s2 = x ^ (y << TINYMT32_SH1);
    tiny->s3 = y;
    if (y & 1) { tiny->s1 ^= tiny->mat1; tiny->s2 ^= tiny->mat2; }
}
inline static uint tinymt32_temper(tinymt32wp_t *tiny)
{
    uint t0 = tiny->s3, t1 = tiny->s0 + (tiny->s2 >> TINYMT32_SH8);
    t0 ^= t1;
    if (t1 & 1) t0 ^= tiny->tmat;
    return t0;
}
inline static uint tinymt32_uint32(tinymt32wp_t *tiny) { tinymt32_next_state(tiny); return tinymt32_temper(tiny); }
inline static void tinymt32_init(tinymt32wp_t *tiny, uint seed)
{
    uint status[4];
    status[0] = seed; status[1] = tiny->mat1; status[2] = tiny->mat2; status[3] = tiny->tmat;
    for (int i = 1; i < MIN_LOOP; i++)
        status[i & 3] ^= i + 1812433253U * (status[(i - 1) & 3] ^ (status[(i - 1) & 3] >> 30));
    tiny->s0 = status[0]; tiny->s1 = status[1]; tiny->s2 = status[2]; tiny->s3 = status[3];
}
inline static void tinymt32_status_read(tinymt32wp_t *tiny, __global tinymt32wp_t *g) { const size_t id = get_global_id(0); *tiny = g[id]; }
inline static void tinymt32_status_write(__global tinymt32wp_t *g, tinymt32wp_t *tiny) { g[get_global_id(0)] = *tiny; }
__kernel void tinymt_init_seed_kernel(__global tinymt32wp_t *d_status, uint seed)
{
    tinymt32wp_t tiny;
    tiny.mat1 = 0x8f7011eeU; tiny.mat2 = 0xfc78ff1fU; tiny.tmat = 0x3793fdffU;
    tinymt32_init(&tiny, seed + get_global_id(0));
    tinymt32_status_write(d_status, &tiny);
}
__kernel void tinymt_uint32_kernel(__global tinymt32wp_t *d_status, __global uint *d_data, int size)
{
    tinymt32wp_t tiny;
    tinymt32_status_read(&tiny, d_status);
    for (int i = 0; i < size; i++) d_data[get_global_size(0) * i + get_global_id(0)] = tinymt32_uint32(&tiny);
    tinymt32_status_write(d_status, &tiny);
}
