__kernel void k(__global int *a) {
  int x = a[0];
  barrier(CLK_LOCAL_MEM_FENCE);
  a[get_local_id(0)] = x;
}
