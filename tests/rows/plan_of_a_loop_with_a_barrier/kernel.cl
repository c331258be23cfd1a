__kernel void k(__global int *a) {
  int i;
  for (i = 0; i < 4; i++) {
    int s = a[i];
    barrier(CLK_LOCAL_MEM_FENCE);
    a[get_local_id(0)] = s + i;
  }
}
