__kernel void k(__global int *a) {
  int n = get_local_size(0);
  int m = min(n, 3);
  int w = m + get_local_id(0);
  barrier(CLK_LOCAL_MEM_FENCE);
  a[w] = n + m;
}
