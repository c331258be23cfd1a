__kernel void f(__global const uint *a, __global uint *o)
{
  int i = get_global_id(0);
  uint x = a[i] % 100000u + 1u;
  uint s = 0;
  while (x != 1u && s < 200u) {
    if (x & 1u)
      x = 3u * x + 1u;
    else
      x = x >> 1;
    s++;
  }
  o[i] = s;
}
