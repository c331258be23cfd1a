__kernel void counters(__global int *a) {
  int l = get_local_id(0);
  int s = 0;
  for (int d = -3; d < 2; d++) {
    barrier(CLK_GLOBAL_MEM_FENCE);
    s += d;
  }
  for (uint u = 4294967293u; u > 5u; u++) {
    barrier(CLK_GLOBAL_MEM_FENCE);
    s += 100;
  }
  for (short h = 32766; h > 0; h++) {
    barrier(CLK_GLOBAL_MEM_FENCE);
    s += 1000;
  }
  for (char c = 100; c != 4; c -= 32) {
    barrier(CLK_GLOBAL_MEM_FENCE);
    s += 10000;
  }
  for (uint z = 7; z < 7u; z++) {
    barrier(CLK_GLOBAL_MEM_FENCE);
    s += 100000;
  }
  a[l] += s;
}
