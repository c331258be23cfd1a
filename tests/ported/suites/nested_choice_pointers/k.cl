__kernel void ch(__global int *a, __global int *b, __constant int *c, const int flag)
{
  const int i = get_global_id(0);
  __global int *p = flag ? a : b, *q = (flag & 2) ? p + 1 : p;
  for (; q < p + 4; q++) *q += i ? 0 : c[q - p];
  __global const int *end = a + 8;
  int n = 0;
  for (__global const int *r = a; r != end; ++r, ++n) if (*r < 0) break;
  if (i == 0) b[7] = n;
}
