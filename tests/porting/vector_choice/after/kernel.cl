__kernel void k(__global int4 *a)
{
  int i = get_global_id(0);
  int4 below = a[i] < 0;
  a[i] = (-a[i] & below) | ((a[i] * 2) & ~below);
}
