__kernel void f(__global const uint *k, __global uint *d)
{
  int i = get_global_id(0);
  uint w[16];
  for (int t = 0; t < 16; t++)
    w[t] = d[i * 16 + t];
  uint a = 0x6a09e667u, b = 0xbb67ae85u, c = 0x3c6ef372u, e = 0x510e527fu, f = 0x9b05688cu,
       g = 0x1f83d9abu, h = 0x5be0cd19u, dd = 0xa54ff53au;
  for (int t = 0; t < 64; t++) {
    uint x = w[t & 15];
    if (t > 15) {
      uint p = w[(t + 1) & 15], q = w[(t + 14) & 15];
      x += (rotate(p, 25u) ^ rotate(p, 14u) ^ (p >> 3)) + w[(t + 9) & 15] +
           (rotate(q, 15u) ^ rotate(q, 13u) ^ (q >> 10));
      w[t & 15] = x;
    }
    uint t1 =
        h + (rotate(e, 26u) ^ rotate(e, 21u) ^ rotate(e, 7u)) + ((e & f) ^ (~e & g)) + k[t] + x;
    uint t2 = (rotate(a, 30u) ^ rotate(a, 19u) ^ rotate(a, 10u)) + ((a & b) ^ (a & c) ^ (b & c));
    h = g;
    g = f;
    f = e;
    e = dd + t1;
    dd = c;
    c = b;
    b = a;
    a = t1 + t2;
  }
  d[i * 16] = a;
  d[i * 16 + 1] = b;
  d[i * 16 + 2] = c;
  d[i * 16 + 3] = dd;
  d[i * 16 + 4] = e;
  d[i * 16 + 5] = f;
  d[i * 16 + 6] = g;
  d[i * 16 + 7] = h;
}
