__kernel void part(__global int *a) {
  if (get_local_id(0) == 0)
    barrier(CLK_LOCAL_MEM_FENCE);
  a[get_global_id(0)] = 1;
}
