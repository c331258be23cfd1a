__constant int t[] = { 10, 20, 30 };
__kernel void k(__global int *a)
{
  int i = get_global_id(0);
  a[i] += t[i % (sizeof(t) / sizeof(t[0]))];
}
