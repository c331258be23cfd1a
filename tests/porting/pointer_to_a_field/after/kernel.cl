void put(uchar *b, int i)
{
  b[i] = i + 1;
}

__kernel void k(__global int *a)
{
  int i = get_global_id(0);
  uint n = 0;
  uchar b[4];
  put(b, i);
  a[i] += b[i] + n;
}
