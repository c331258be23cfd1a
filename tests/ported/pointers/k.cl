// pointers
void fill(__global int *p, __global int *end, int v) { int n = 0; for (; n < 3; n++) p[n] = v + n; }
int walk(const __global int *s, int n) { const __global int *e = s + n; int r = 0; while (s != e) r = r * 3 + *s++; return r; }
int both(__local int *x, __local int *y) { return *x * 2 + y[1]; }
void set(int4 *v, int x) { v->x = x; (*v).w = x + 1; v[0].yz = (int2)(x, 9); }
typedef struct node { short lo, hi; int next; } node;
typedef struct { node n[3]; char4 tag; } box;
int chase(__global const node *t, int at) { int r = 0; while (at >= 0 && r < 20) { r += t[at].lo; at = t[at].hi > 0 ? (t[at].next & 3) : -1; r++; } return r; }
__kernel void k(__global int *a, __global int *o, int n)
{
  int i = get_global_id(0), l = get_local_id(0);
  __local int one[8], two[8];
  __local int *x = one, *y = two;
  one[l] = a[i]; two[l] = a[i] >> 3;
  barrier(CLK_LOCAL_MEM_FENCE);
  for (int s = 0; s < 3; s++) {
    y[l] = x[(l + 1) & 7] + x[l];
    barrier(1);
    __local int *t = x; x = y; y = t;
  }
  __global int *out = o + i * 16;
  out[0] = x[l]; out[1] = both(x, y);
  fill(out + 2, out + 5, i);
  out[5] = walk(o + 300 + i, 4);
  __global const node *nodes = (__global const node *)a;
  out[6] = nodes[i].lo + nodes[i].next + nodes[3].hi;
  int4 v[1]; set(v, i); out[7] = v->x + v->y * 3 + v->z + (*v).w;
  __global int4 *q = (__global int4 *)(a + 4);
  out[8] = q[i & 1].z + (q + 1)->x; 
  ((__global int2 *)out)[5] = (int2)(i, -i);
  box b[2] = { { { { 1, 2, 3 }, { 4 } }, (char4)(1, 2, 3, 4) }, { .tag = (char4)(7) } };
  b[1].n[i % 3].hi = i; b[i & 1].tag.s2 += 5; b[0].n[2] = b[1].n[i % 3];
  out[9] = b[0].n[2].hi + b[1].tag.z * 16 + b[0].tag.z + b[0].n[0].next + b[0].n[1].lo;
  int c = 3; int d = 8; int *pc = i & 1 ? &c : &d; *pc += 4; out[12] = c + d;
  out[13] = (i > 3 ? x : y)[2];
  __global int *w = out; *w++ += 1; *++w -= 5; out[14] = w - out; out[15] = &out[9] - w;
}
