#define MAXLEN 16
#define MIN3(a, b, c) ((a) < (b) ? ((a) < (c) ? (a) : (c)) : ((b) < (c) ? (b) : (c)))
int lev(const char *s, int n, __global const char *t, int m)
{
  int col[MAXLEN + 1];
  int x, y, last, old;
  for (y = 0; y <= n; y++) col[y] = y;
  for (x = 1; x <= m; x++) {
    col[0] = x;
    for (y = 1, last = x - 1; y <= n; y++) {
      old = col[y];
      col[y] = MIN3(col[y] + 1, col[y - 1] + 1, last + (s[y - 1] == t[x - 1] ? 0 : 1));
      last = old;
    }
  }
  return col[n];
}
__kernel void distances(__constant char *word, int n, __global const char *dict, __global int *d)
{
  char w[MAXLEN];
  for (int i = 0; i < n; ++i) w[i] = word[i] >= 'A' && word[i] <= 'Z' ? word[i] + ('a' - 'A') : word[i];
  __global const char *t = &dict[get_global_id(0) * 8];
  int m = 0;
  while (m < 8 && t[m] != '\0') m++;
  d[get_global_id(0)] = lev(w, n, t, m);
}
