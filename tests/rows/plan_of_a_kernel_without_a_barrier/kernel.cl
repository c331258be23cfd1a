__kernel void k(__global int *a) {
  int x = get_local_id(0);
  a[x] = x;
}
