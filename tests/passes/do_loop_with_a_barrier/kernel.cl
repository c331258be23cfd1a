// The test of a do loop comes behind its body.
__kernel void after(__global int *a, int n) {
  int i = 0;
  do {
    a[get_global_id(0)] += i;
    barrier(CLK_GLOBAL_MEM_FENCE);
    i++;
  } while (i < n);
}
