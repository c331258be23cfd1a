__kernel void k(__global int4 *a)
{
  int i = get_global_id(0);
  int4 zero = (int4)0;
  a[i] = zero - a[i];
}
