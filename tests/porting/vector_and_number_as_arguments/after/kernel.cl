__kernel void k(__global int *a)
{
  int i = get_global_id(0);
  int2 v = max((int2)(a[i], i), (int2)(2));
  a[i] = v.x * 10 + v.y;
}
