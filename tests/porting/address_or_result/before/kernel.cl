void add(int *to, int n)
{
  *to += n;
}
__kernel void k(__global int *a)
{
  int i = get_global_id(0);
  int x = a[i];
  add(&x, 10);
  a[i] = x;
}
