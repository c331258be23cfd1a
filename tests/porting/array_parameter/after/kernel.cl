int sum(int *x) { return x[0] + x[1]; }
__kernel void k(__global int *a)
{
  int i = get_global_id(0);
  int two[2] = { a[i], i };
  a[i] = sum(two);
}
