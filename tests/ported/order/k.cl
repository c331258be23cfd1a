// order and side effects
int count(int *n) { return (*n)++; }
int2 two(int *n) { (*n)++; return (int2)(*n, *n * 2); }
void log_(__global int *p, int v) { p[0] = p[0] * 7 + v; }
__kernel void k(__global int *a, __global int *o, int n)
{
  int i = get_global_id(0), c = i;
  __global int *out = o + i * 16;
  out[count(&c) & 0] = count(&c) + 10;
  int2 v = two(&c) + two(&c).yx;
  out[1] = v.x * 100 + v.y;
  out[2] = (c > 3 && two(&c).x > 5) ? two(&c).y : count(&c);
  out[3] = c;
  for (int2 w = (int2)(0, i); w.x < 5 && two(&c).x < 40; w += two(&c) & 3) out[4] += w.x + w.y;
  int k = 0;
  int2 arr[4];
  arr[k++] = two(&c); arr[k] = arr[k - 1] + 1; k++; arr[k] = (int2)(k, 7); arr[3] = (int2)(0);
  out[5] = arr[0].x + arr[1].y + arr[2].x + k;
  int2 x, y; x = y = two(&c); out[6] = x.y + y.x;
  log_(out + 7, 3), log_(out + 7, i);
  i & 1 ? log_(out + 7, 5) : log_(out + 8, 9);
  out[9] = (two(&c), count(&c), c);
  while (two(&c).x < 60) { if (c & 1) continue; out[10]++; }
  do out[11] += c--; while (two(&c).y > 110 && out[11] < 999);
  switch (two(&c).x & 3) { case 0: out[12] = 1; case 1: out[12] += 2; break; default: out[12] = 9; }
  out[13] = select(count(&c), count(&c), i > 3) + clamp(count(&c), 3, 50);
  int2 z = i > 7 ? two(&c) : (int2)(4); z = -z; z.y++; --z.x; out[14] = z.x - z.y; 
  out[15] = c + vload2(count(&c) & 1, a).y; vstore2(two(&c), 0, out + 2 * (count(&c) & 0));
}
