int add(int to, int n)
{
  return to + n;
}
__kernel void k(__global int *a)
{
  int i = get_global_id(0);
  int x = a[i];
  x = add(x, 10);
  a[i] = x;
}
