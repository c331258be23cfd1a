typedef struct { float x, y; int id; } particle;
__constant float WEIGHTS[3] = { 0.25f, 0.5f, 0.25f };
__constant sampler_t smp = CLK_NORMALIZED_COORDS_FALSE | CLK_ADDRESS_CLAMP | CLK_FILTER_NEAREST;
#define N_ITEMS 4
float weight(int i) { return WEIGHTS[i]; }
__kernel void blur(__read_only image2d_t in, __write_only image2d_t out) { int2 p = (int2)(0, 0); write_imagef(out, p, read_imagef(in, smp, p)); }
__kernel void move(__global particle *p, float dt) { p[get_global_id(0)].x += dt * weight(1); }
__kernel void count(__global const int *ids, __global int *n)
{
  int c = 0;
  for (int i = 0; i < N_ITEMS; i++) c += ids[get_global_id(0) * N_ITEMS + i] > 0;
  n[get_global_id(0)] = c;
}
