void add(int *to, int n)
{
  *to += n;
}
__kernel void k(__global int *a)
{
  int i = get_global_id(0);
  int x[1] = { a[i] };
  add(x, 10);
  a[i] = x[0];
}
