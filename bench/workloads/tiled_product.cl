__kernel void f(__global const int *a, __global const int *b, __global int *c)
{
  __local int ta[16][16];
  __local int tb[16][16];
  int l = get_local_id(0), g = get_group_id(0);
  int ly = l / 16, lx = l % 16;
  int y = g / (N / 16) * 16 + ly;
  int x = g % (N / 16) * 16 + lx;
  int s = 0;
  for (int t = 0; t < N / 16; t++) {
    ta[ly][lx] = a[y * N + t * 16 + lx];
    tb[ly][lx] = b[(t * 16 + ly) * N + x];
    barrier(CLK_LOCAL_MEM_FENCE);
    for (int q = 0; q < 16; q++)
      s += ta[ly][q] * tb[q][lx];
    barrier(CLK_LOCAL_MEM_FENCE);
  }
  c[y * N + x] = s;
}
