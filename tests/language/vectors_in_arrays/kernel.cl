void put(__global int2 *to, int n)
{
  *to = (int2)(n, -n);
  to[1].y += n;
  to += 1;
  *to++ -= 1;
}
__kernel void k(__global int2 *a, __global int4 *b)
{
  int4 t[3];
  __local short2 s[4];
  int l = get_local_id(0);
  for (int i = 0; i < 3; i++)
    t[i] = (int4)(i, l, i * l, -1);
  s[l] = (short2)(l, 10 * l);
  barrier(CLK_LOCAL_MEM_FENCE);
  short2 other = s[3 - l];
  t[2].zw += (int2)(other.x, other.y);
  b[l] = t[0] + t[1] + t[2];
  put(a + 2 * l, l + 5);
}
