__kernel void pp(__global int *a, __global int *b, const int steps)
{
  __global int *buf[2] = { a, b };
  const int i = get_global_id(0), n = get_global_size(0);
  for (int t = 0; t < steps; t++) {
    __global int *src = buf[t & 1], *dst = buf[1 - (t & 1)];
    dst[i] = src[i] * 2 + 1;
  }
}
