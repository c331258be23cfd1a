__kernel void f(__global ulong *a)
{
  int i = get_global_id(0);
  ulong x = a[i];
  for (int r = 0; r < 64; r++) {
    x ^= x << 13;
    x ^= x >> 7;
    x ^= x << 17;
    x *= 0x2545F4914F6CDD1DUL;
  }
  a[i] = x;
}
