__kernel void f(__global const uchar4 *a, __global uchar4 *o)
{
  int i = get_global_id(0);
  int n = get_global_size(0);
  int l = i > 0 ? i - 1 : 0, r = i < n - 1 ? i + 1 : i;
  o[i] = (a[l] >> (uchar4)(2)) + (a[i] >> (uchar4)(1)) + (a[r] >> (uchar4)(2));
}
