struct cell { int count; int sum; };
__kernel void k(__global struct cell *a)
{
  int i = get_global_id(0);
  a[i].sum = a[i].count * 2;
}
