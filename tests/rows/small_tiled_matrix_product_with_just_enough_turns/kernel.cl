__kernel void mm(__global const int *a, __global const int *b, __global int *c)
{
  __local int ta[TILE][TILE];
  __local int tb[TILE][TILE];
  int l = get_local_id(0), g = get_group_id(0);
  int ly = l / TILE, lx = l % TILE;
  int y = g / (N / TILE) * TILE + ly;
  int x = g % (N / TILE) * TILE + lx;
  int s = 0;
  for (int t = 0; t < N / TILE; t++) {
    ta[ly][lx] = a[y * N + t * TILE + lx];
    tb[ly][lx] = b[(t * TILE + ly) * N + x];
    barrier(CLK_LOCAL_MEM_FENCE);
    for (int k = 0; k < TILE; k++) s += ta[ly][k] * tb[k][lx];
    barrier(CLK_LOCAL_MEM_FENCE);
  }
  c[y * N + x] = s;
}
