typedef struct { uint k; uchar c; short s; ulong u; int4 v; } rec;
typedef struct { char tag; int a[3]; } __attribute__((packed)) pk;
rec bump(rec r, int by) { r.k += by; r.s -= by; r.v = r.v.wzyx + by; return r; }
void inc(__global rec *r) { r->k++; r->c--; ++r->s; r->u += r->k++; (*r).v.z *= 3; }
int deep(const pk *p) { return p->tag + p->a[1] * 2; }
__kernel void k(__global int *a, __global rec *o, int n)
{
  int i = get_global_id(0);
  rec r = o[i];
  r.k = a[i]; r.c = a[i] >> 3; r.s = a[i + 1]; r.u = ((ulong)a[i] << 32) | (uint)a[i + 2]; r.v = vload4(i, a);
  o[i] = r;
  inc(&o[i]); inc(o + i);
  rec q = bump(o[i], i);
  o[i + 16] = q;
  o[i + 16].v.even ^= 5; o[i + 16].u >>= i; o[i + 16].u += o[i].k;
  __local rec t[8];
  t[get_local_id(0)] = o[i + 16];
  barrier(CLK_LOCAL_MEM_FENCE);
  __local rec *p = &t[(get_local_id(0) + 3) % 8];
  int w = p->v.x + p->s + p->c++ + (int)p->u;
  pk z = { 3, { 1, w, 7 } }; z.a[i % 3] += 9;
  o[i].v.w = w + deep(&z);
  uint old = o[i].k++; o[i].v.y = old + (o[i].c += 300);
}
