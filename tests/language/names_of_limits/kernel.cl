__kernel void k(__global long *a)
{
  a[0] = SCHAR_MIN;
  a[1] = SCHAR_MAX;
  a[2] = UCHAR_MAX;
  a[3] = CHAR_BIT;
  a[4] = SHRT_MIN;
  a[5] = SHRT_MAX;
  a[6] = INT_MIN;
  a[7] = UINT_MAX;
  a[8] = LONG_MAX;
}
