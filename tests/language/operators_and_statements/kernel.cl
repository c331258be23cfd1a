__kernel void k(__global int *a)
{
  int x = 2, y = 5, z = 20 - 5 - 3;
  a[0] = x+++y;
  a[1] = x;
  a[2] = z/**/- -x;
  a[3] = 7&6&&1|8;
  a[4] = 100>>2<<1;
  if (x > 100) if (y) a[5] = 1; else a[5] = 2;
  a[6] = 2 - 3 - 4;
  for (;;) { if (a[7] > 2) break; a[7]++; continue; }
  do x--; while (++y, x > 0);
  a[8] = y;
  a[9] = sizeof(int) * -~!z;
  a[10] = 1 ? 2, 3 : 4;
}
