__kernel void k(__global int *a)
{
  int i = get_global_id(0);
  int2 v = 4;
  v.x += a[i];
  a[i] = v.x * 10 + v.y;
}
