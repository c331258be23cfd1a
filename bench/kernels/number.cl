// Sixteen times the number of the item in a loop.
#define ASK x = get_global_id(0);
#define FOUR ASK ASK ASK ASK
__kernel void bench(__global int *a, int n)
{
  ulong x = 0;
  for (int i = 0; i < n; i++) {
    FOUR FOUR FOUR FOUR
  }
  a[get_global_id(0)] = (int)x;
}
