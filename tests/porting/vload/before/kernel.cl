__kernel void k(__global int *a)
{
  int i = get_global_id(0);
  int4 v = vload4(i, a);
  vstore4(v.wzyx, i, a);
}
