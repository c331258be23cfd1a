__kernel void k(__global int *a)
{
  int i = get_global_id(0);
  printf("%d\n", a[i] * a[i]);
}
