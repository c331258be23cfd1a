int f(int x)
{
  return x + 1;
}
__kernel void k(__global int4 *a)
{
  int4 f = a[0];
  f.x = f(41);
  a[0] = f;
  int t = 2;
  int4 t = a[1];
  a[1] = t + t;
  int4 u = a[2];
  int u = 1;
  a[2] += u;
  int4 min = a[3];
  a[3] = min(min, a[2]);
}
