__kernel void k(__global int *a) {
  int x = 1;
  if (get_group_id(0) == 0) x = 2;
  barrier(CLK_LOCAL_MEM_FENCE);
  a[get_local_id(0)] = x;
}
