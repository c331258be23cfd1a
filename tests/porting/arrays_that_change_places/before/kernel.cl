__kernel void k(__global int *a)
{
  int i = get_global_id(0);
  __local int first[4], second[4];
  __local int *from = first, *to = second;
  from[i] = a[i];
  for (int n = 0; n < 3; n++) {
    barrier(CLK_LOCAL_MEM_FENCE);
    to[i] = from[i] + from[(i + 1) % 4];
    __local int *next = to;
    to = from;
    from = next;
  }
  a[i] = from[i];
}
