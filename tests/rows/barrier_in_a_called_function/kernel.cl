int meet(__local int *t, int l) {
  t[l] = t[l] + 1;
  barrier(CLK_LOCAL_MEM_FENCE);
  return t[1 - l];
}
__kernel void two(__global int *a) {
  __local int t[2];
  int l = get_local_id(0);
  int x = meet(t, l);
  barrier(CLK_LOCAL_MEM_FENCE);
  int y = x == 1 && meet(t, l) == 2;
  a[l] = x * 10 + y;
}
