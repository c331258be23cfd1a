#define SQUARE(x) ((x) * (x))
__kernel void k(__global int *a)
{
  int i = get_global_id(0);
  a[i] = SQUARE(a[i] + 1);
}
