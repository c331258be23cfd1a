void twice(int4 *v)
{
  *v = *v * 2;
}
__kernel void k(__global int4 *a)
{
  int i = get_global_id(0);
  int4 v[1];
  v[0] = a[i];
  twice(v);
  a[i] = v[0] + 1;
}
