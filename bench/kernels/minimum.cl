// Sixteen times the smaller of two numbers, in a loop.
#define MIN x = min(x, y);
#define FOUR MIN MIN MIN MIN
__kernel void bench(__global int *a, int n)
{
  int x = a[get_global_id(0)];
  int y = a[get_local_id(0)];
  for (int i = 0; i < n; i++) {
    FOUR FOUR FOUR FOUR
  }
  a[get_global_id(0)] = x;
}
