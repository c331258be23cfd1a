__kernel void past(__global int *a) {
  a[get_global_id(0) + 1] = 0;
}
