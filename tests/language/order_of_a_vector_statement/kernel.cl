int next(__global int *n)
{
  n[0] = n[0] + 1;
  return n[0];
}
__kernel void k(__global int4 *a, __global int *n)
{
  a[next(n)] = (int4)(next(n), next(n), next(n), n[0]);
  a[next(n) - 4].yx += a[next(n) - 5].zw * next(n);
  int i = 0;
  a[i = 2] = (int4)(i) + (i = 3, 10);
  int4 t = (int4)(i++, i++, i, i--);
  a[3] = t;
}
