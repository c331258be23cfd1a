#define ROWS 2
#define COLUMNS 3
#define NEGATE 1
// A transposed matrix, negated where NEGATE is given. ROWS and COLUMNS are given too.
__kernel void transpose(__global const int *a, __global int *b)
{
  int x = get_global_id(0), y = get_global_id(1);
#ifdef NEGATE
  b[x * ROWS + y] = -a[y * COLUMNS + x];
#else
  b[x * ROWS + y] = a[y * COLUMNS + x];
#endif
}
