int twice(int x) { return x + x; }
__kernel void k(__global int *a) {
  int l = get_local_id(0);
  int y = twice(l);
  barrier(CLK_GLOBAL_MEM_FENCE);
  a[l] = y;
}
