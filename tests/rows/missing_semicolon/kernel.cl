__kernel void m(__global int *a) {
  a[0] = 1
}
