__kernel void k(__global int *from, __global int *to)
{
  int i = get_global_id(0);
  for (int n = 0; n < 2; n++) {
    to[i] = from[i] * 3;
    __global int *next = to;
    to = from;
    from = next;
  }
}
