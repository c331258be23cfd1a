struct line { int slope; int start; };
__kernel void k(__global int *a, struct line l)
{
  int i = get_global_id(0);
  a[i] = l.slope * a[i] + l.start;
}
