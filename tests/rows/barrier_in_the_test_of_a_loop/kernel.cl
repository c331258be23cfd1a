int meet(__local int *t, int l) {
  t[l] = t[l] + 1;
  barrier(CLK_LOCAL_MEM_FENCE);
  return t[1 - l];
}
__kernel void wl(__global int *a) { __local int t[2]; int l = get_local_id(0); int n = 0; while (meet(t, l) < 3) { n++; barrier(CLK_LOCAL_MEM_FENCE); } a[l] = n; }
