__kernel void k(__global int *a)
{
  int i = get_global_id(0);
  switch (i) {
    int t;
    case 0: t = 5; a[i] += t; break;
    default: t = i; a[i] -= t;
  }
}
