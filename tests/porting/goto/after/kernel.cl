__kernel void k(__global int *a, __global int *b)
{
  int i = get_global_id(0);
  int n = 0;
  bool found = false;
  for (int x = 0; x < 4 && !found; x++)
    for (int y = 0; y < 4 && !found; y++) {
      n++;
      if (a[x] + y == 12)
        found = true;
    }
  b[i] = n;
}
