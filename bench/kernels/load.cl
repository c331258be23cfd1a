// Eight loads of an item's own element in a loop.
#define LOAD x = a[g];
#define FOUR LOAD LOAD LOAD LOAD
__kernel void bench(__global int *a, int n)
{
  int g = get_global_id(0);
  int x = 0;
  for (int i = 0; i < n; i++) {
    FOUR FOUR
  }
  a[g] = x + n;
}
