__kernel void f(__global uint *a)
{
  int i = get_global_id(0);
  uint v0 = a[2 * i], v1 = a[2 * i + 1], sum = 0;
  for (int r = 0; r < 32; r++) {
    v0 += (((v1 << 4) ^ (v1 >> 5)) + v1) ^ (sum + 0x1234u);
    sum += 0x9E3779B9u;
    v1 += (((v0 << 4) ^ (v0 >> 5)) + v0) ^ (sum + 0x5678u);
  }
  a[2 * i] = v0;
  a[2 * i + 1] = v1;
}
