enum Direction { STOP, DIAG, UP, LEFT };
typedef struct { int score; enum Direction dir; } Cell;
#define GAP 2
__kernel void sw(__global const uchar *a, __global const uchar *b, __global int *best, const int n, const int m)
{
  int gid = get_global_id(0);
  Cell row[9];
  int top = 0;
  for (int j = 0; j <= m; j++) { row[j].score = 0; row[j].dir = STOP; }
  for (int i = 1; i <= n; i++) {
    Cell diag = row[0];
    for (int j = 1; j <= m; j++) {
      Cell up = row[j], cur;
      int s = diag.score + (a[gid * n + i - 1] == b[j - 1] ? 3 : -3);
      cur.score = 0; cur.dir = STOP;
      if (s > cur.score) cur = (Cell){ s, DIAG };
      if (up.score - GAP > cur.score) { cur.score = up.score - GAP; cur.dir = UP; }
      if (row[j - 1].score - GAP > cur.score) { cur.score = row[j - 1].score - GAP; cur.dir = LEFT; }
      diag = up;
      row[j] = cur;
      top = max(top, cur.score * 4 + (int)cur.dir);
    }
  }
  best[gid] = top;
}
