void f(int n) {
  barrier(CLK_LOCAL_MEM_FENCE);
}
__kernel void k(__global int *a) {
  f(1);
  f(2);
}
