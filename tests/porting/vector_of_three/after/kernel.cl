__kernel void k(__global int4 *a)
{
  int i = get_global_id(0);
  a[i].lo = a[i].lo * 3;
  a[i].z = a[i].z * 3;
}
