__kernel void k(__global int4 *a)
{
  int i = get_global_id(0);
  uchar4 v = convert_uchar4(a[i]);
  a[i] = convert_int4(v);
}
