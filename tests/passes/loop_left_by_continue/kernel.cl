// A way round the rest of a body sets a flag.
__kernel void odd(__global int *a, int n) {
  int s = 0;
  for (int i = 0; i < n; i++) {
    if (i % 2 == 0)
      continue;
    if (a[i] < 0)
      break;
    s += a[i];
  }
  a[get_global_id(0)] = s;
}
