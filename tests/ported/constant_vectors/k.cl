int f(__constant int4 *c, int i) { return c[i].x + (c + 1)->y; }
int four(int4 v) { return v.s0 ^ v.s3; }
typedef struct { int2 p; char t[3]; } item;
int g(__local item *q, __global const uchar4 *b) { return q->p.y + q->t[2] + b[1].z + convert_int4(b[0]).w; }
void up(__global uchar *p, uint n) { while (n--) { *p = (*p << 3 | *p >> 5) + 1; p++; } }
__kernel void k(__constant int4 *c, __global int *o, int n)
{
  int i = get_global_id(0), l = get_local_id(0);
  __local item items[8];
  items[l].p = (int2)(i, c[l & 3].z); items[l].t[2] = l; items[l].p.x <<= 1;
  barrier(CLK_LOCAL_MEM_FENCE);
  o[i] = f(c, l & 1) + four(c[i & 3]) + items[7 - l].p.x;
  o[16 + i] = items[l].t[2];
  barrier(CLK_GLOBAL_MEM_FENCE);

  int4 t[2][2]; t[1][0] = c[1]; t[0][1] = t[1][0].wzyx; t[1][1] = t[0][1] + t[1][0]; t[0][0] = (int4)0;
  int s = 0; for (int a = 0; a < 2; a++) for (int b = 0; b < 2; b++) s += t[a][b].s0 * (a + 2 * b + 1) + t[a][b].w;
  o[48 + i] = s; 
  int deep[2][2][2][2] = { { { { 1 } } } }; deep[1][i & 1][1][0] = i; o[64 + i] = deep[1][1][1][0] + deep[0][0][0][0];
  uint m = 5; m = i > 3 ? m : 0.0f; o[80 + i] = m;
}
