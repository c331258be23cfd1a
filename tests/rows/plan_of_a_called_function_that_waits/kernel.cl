void f(int n) {
  int y = n;
  barrier(CLK_LOCAL_MEM_FENCE);
  y = y + 1;
}
__kernel void k(__global int *a) {
  f(1);
  f(get_local_id(0));
}
