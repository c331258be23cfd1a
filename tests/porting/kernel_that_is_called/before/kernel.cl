__kernel void h(__global int *a)
{
  a[get_global_id(0)] *= 2;
}
__kernel void k(__global int *a)
{
  int i = get_global_id(0);
  h(a);
  a[i] += 1;
}
