// Short-circuit operators, the conditional operator, the comma and changes of a target.
__kernel void all(__global int *a, uchar u, int n) {
  int i = get_global_id(0);
  int x = (i > n || a[i] == 0) && !(a[i] & 1);
  x = n ? a[i]++ : --a[i];
  u <<= 1;
  a[i] = (x += u, ~x);
  a[i] ^= x = -n;
}
