__kernel void k(__global int4 *a)
{
  __local int4 s[5];
  int l = get_local_id(0);
  int4 sum = a[l];
  for (int4 c, d; sum.x < 40; c.x++, sum.x += c.x + 5) {
    int4 zero;
    zero.y += sum.x;
    s[l] = sum;
    barrier(CLK_LOCAL_MEM_FENCE);
    sum.yz += s[(l + 1) % 5].wx;
    barrier(CLK_LOCAL_MEM_FENCE);
    if (zero.y > 20 && sum.w != 3)
      sum += (int4)(0, 1, 0, 2);
  }
  a[l] = sum;
}
