struct cell { int sum; uchar step; };
__kernel void k(__global struct cell *a)
{
  int i = get_global_id(0);
  a[i].sum += a[i].step;
}
