#define N 3
__kernel void k(__global int *a)
{
  int i = get_global_id(0);
#if N > 2
  a[i] = N;
#else
  a[i] = 0;
#endif
}
