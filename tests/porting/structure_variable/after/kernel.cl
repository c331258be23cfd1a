void add(int *s, int x) { s[0] += x; s[1]++; }
__kernel void k(__global int *a)
{
  int i = get_global_id(0);
  int s[2] = { 1, 0 };
  add(s, a[i]);
  add(s, i);
  a[i] = s[0] * 10 + s[1];
}
