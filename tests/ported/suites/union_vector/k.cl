typedef union { uint4 v; uint a[4]; uchar b[16]; ulong2 l; } quad;
typedef union { uchar4 c; uint u; } pix;
uint fold(quad q) { return q.a[0] ^ q.a[1] ^ q.a[2] ^ q.a[3] ^ q.b[7]; }
__kernel void uv(__global uint4 *in, __global uint *out)
{
  quad q, r;
  q.v = in[get_global_id(0)];
  r = q;
  r.b[3] ^= 0xff; r.a[1] += q.b[15]; r.l.y = q.l.x + 1;
  pix p; p.u = r.a[2]; p.c.s1 = p.c.s3; p.c = p.c.wzyx;
  out[get_global_id(0)] = fold(r) + p.u;
  in[get_global_id(0)] = r.v;
}
