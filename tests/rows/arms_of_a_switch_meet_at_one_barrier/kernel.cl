__kernel void arms(__global int *a) {
  int l = get_local_id(0);
  switch (l) {
    case 0: a[l] = 1;
    case 1: barrier(CLK_GLOBAL_MEM_FENCE); a[l] += 10;
  }
}
