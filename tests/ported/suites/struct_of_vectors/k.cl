typedef struct { uchar tag; uint4 pos; short2 uv[2]; } vertex;
typedef struct vertex_list vertex_list;
struct vertex_list { vertex v[2]; uint n; };
uint area(__local const vertex_list *l, const uint i) { return l->v[i].pos.x * l->v[1 - i].pos.y + (uint)l->v[i].uv[1].x; }
__kernel void verts(__global vertex *in, __global uint *out)
{
  __local vertex_list list;
  const uint l = get_local_id(0);
  list.v[l] = in[get_global_id(0)];
  if (l == 0) list.n = 2;
  barrier(CLK_LOCAL_MEM_FENCE);
  vertex w = list.v[1 - l];
  w.pos += (uint4)(1, 2, 3, 4); w.uv[0].y = 7; w.pos.zw = w.pos.xy; w.tag++;
  out[get_global_id(0)] = area(&list, l) + list.n + w.pos.w + w.uv[0].y + w.tag;
  in[get_global_id(0)] = w;
}
