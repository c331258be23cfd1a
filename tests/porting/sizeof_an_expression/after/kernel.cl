#define LENGTH 3
__constant int t[LENGTH] = { 10, 20, 30 };
__kernel void k(__global int *a)
{
  int i = get_global_id(0);
  a[i] += t[i % LENGTH];
}
