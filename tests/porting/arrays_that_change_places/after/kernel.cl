__kernel void k(__global int *a)
{
  int i = get_global_id(0);
  __local int rows[2][4];
  int from = 0;
  rows[from][i] = a[i];
  for (int n = 0; n < 3; n++) {
    barrier(CLK_LOCAL_MEM_FENCE);
    rows[1 - from][i] = rows[from][i] + rows[from][(i + 1) % 4];
    from = 1 - from;
  }
  a[i] = rows[from][i];
}
