#define N 32
#define TILE 8
// A tiled product of two square matrices.
__kernel void product(__global const int *a, __global const int *b, __global int *c)
{
  __local int ta[TILE][TILE];
  __local int tb[TILE][TILE];
  int lx = get_local_id(0), ly = get_local_id(1);
  int x = get_global_id(0), y = get_global_id(1);
  int s = 0;
  for (int t = 0; t < N / TILE; t++) {
    ta[ly][lx] = a[y * N + t * TILE + lx];
    tb[ly][lx] = b[(t * TILE + ly) * N + x];
    barrier(CLK_LOCAL_MEM_FENCE);
    for (int k = 0; k < TILE; k++)
      s += ta[ly][k] * tb[k][lx];
    barrier(CLK_LOCAL_MEM_FENCE);
  }
  c[y * N + x] = s;
}
