__kernel __attribute__((reqd_work_group_size(2, 1, 1)))
void k(__global int *a, __constant uchar *c, __local int *l, char n)
{
  __local char t[65500];
  t[get_local_id(0)] = n;
  l[get_local_id(0)] = a[get_global_id(0)] + c[0];
}
