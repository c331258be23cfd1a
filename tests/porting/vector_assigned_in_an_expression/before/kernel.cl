__kernel void k(__global int *a)
{
  int i = get_global_id(0);
  int2 v = (int2)(a[i], i), w;
  int2 u = v + (w = v.yx);
  a[i] = u.x * 10 + w.x;
}
