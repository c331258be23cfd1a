__kernel void col(__global int *a) {
  if (get_global_id(0) == 1 && get_global_id(1) == 0) a[4] = 1;
}
