__kernel void sh2(__global int *a) {
  int l = get_local_id(0);
  { int x = l + 1; barrier(CLK_LOCAL_MEM_FENCE); a[l] = x; }
  { int y = l * 2; barrier(CLK_LOCAL_MEM_FENCE); a[l] += y; }
}
