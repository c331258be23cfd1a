__attribute__((always_inline)) int twice(int x) { return 2 * x; }
__kernel void k(__global int *a)
{
  int i = get_global_id(0);
  a[i] = twice(a[i]);
}
