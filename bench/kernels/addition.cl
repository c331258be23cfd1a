// Sixteen additions in a loop.
#define ADD x = x + y;
#define FOUR ADD ADD ADD ADD
__kernel void bench(__global int *a, int n)
{
  int x = a[get_global_id(0)];
  int y = a[get_local_id(0)];
  for (int i = 0; i < n; i++) {
    FOUR FOUR FOUR FOUR
  }
  a[get_global_id(0)] = x;
}
