__kernel void k(__global int4 *a, int x, int y, int z, int w)
{
  int i = get_global_id(0);
  a[i] += (int4)(x, y, z, w);
}
