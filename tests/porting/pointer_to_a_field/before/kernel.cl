typedef struct {
  uint n;
  uchar b[4];
} part_t;

void put(uchar *b, int i)
{
  b[i] = i + 1;
}

__kernel void k(__global int *a)
{
  int i = get_global_id(0);
  part_t p;
  p.n = 0;
  put(p.b, i);
  a[i] += p.b[i] + p.n;
}
