__constant int t[2] = { 3, 4 };
__kernel void k(__global int *a) {
  int x = t[1];
  barrier(CLK_LOCAL_MEM_FENCE);
  a[get_local_id(0)] = x;
}
