int at(__global int *q, int i) {
  q += i;
  return *q;
}

__kernel void walk(__global int *a, __global int *b, __global int *c) {
  int g = get_global_id(0);
  __global int *p = c;
  int s = 0;
  a += 1;
  for (int i = 0; i < 2; i++) {
    s = s * 100 + at(a, i) * 10 + at(c, i);
    b[2 * g] = s;
    b += 1;
    p += 1;
    if (i == g) {
      s += p[0] + c[0];
    }
  }
}
