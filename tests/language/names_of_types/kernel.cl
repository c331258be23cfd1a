__kernel void k(__global long *a)
{
  a[0] = (bool)456;
  a[1] = (char)200;
  a[2] = (unsigned char)456;
  a[3] = (const short int volatile)40000;
  a[4] = (signed short int)40000;
  a[5] = (unsigned short)70000;
  a[6] = (signed)0xFFFFFFFF;
  a[7] = (volatile unsigned)-1;
  a[8] = (const unsigned int const)-1;
  a[9] = (long)-1 < 0;
  a[10] = (signed long int)-1 < 0;
  a[11] = (unsigned long int)-1 > 0;
  a[12] = (ulong)-1 > 0;
  a[13] = (ushort)-1;
  a[14] = (size_t)-1 > 0;
}
