__kernel void k(__global int *a)
{
  int i = get_global_id(0);
  int2 v = (int2){ a[i], 2 };
  a[i] = v.x * v.y;
}
