__kernel void f(__global uint *a)
{
  __local uint t[256];
  int l = get_local_id(0);
  t[l] = a[get_global_id(0)];
  barrier(CLK_LOCAL_MEM_FENCE);
  for (int k = 2; k <= 256; k *= 2)
    for (int j = k / 2; j > 0; j /= 2) {
      int p = l ^ j;
      if (p > l) {
        uint x = t[l], y = t[p];
        bool up = (l & k) == 0;
        if ((x > y) == up) {
          t[l] = y;
          t[p] = x;
        }
      }
      barrier(CLK_LOCAL_MEM_FENCE);
    }
  a[get_global_id(0)] = t[l];
}
