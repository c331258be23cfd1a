__kernel void spin(__global int *a)
{
  while (a[0] == 0) {
  }
  a[1] = 1;
}
