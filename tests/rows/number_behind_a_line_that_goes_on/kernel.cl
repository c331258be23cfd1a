#define ONE \
  1
__kernel void inc(__global int *a) { a[get_global_id(0)] = a[get_global_id(0)] \
 + ONE; }
