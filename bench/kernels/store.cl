// Eight stores to an item's own element in a loop.
#define STORE a[g] = x;
#define FOUR STORE STORE STORE STORE
__kernel void bench(__global int *a, int n)
{
  int g = get_global_id(0);
  int x = a[g] + 1;
  for (int i = 0; i < n; i++) {
    FOUR FOUR
  }
}
