typedef struct { int4 lo; int4 hi; int left; int right; int first; int count; } Node;
typedef struct { int3 o; int3 d; } Ray;
inline bool hit(const Node n, const Ray r)
{
  int3 c = r.o + r.d;
  return all(c >= n.lo.xyz) && all(c <= n.hi.xyz);
}
__kernel void traverse(__global const Node *nodes, __global const int *rays, __global int *hits)
{
  int id = get_global_id(0);
  Ray r;
  r.o = vload3(id * 2, rays);
  r.d = vload3(id * 2 + 1, rays);
  int stack[8];
  int sp = 0, found = 0;
  stack[sp++] = 0;
  while (sp) {
    const Node n = nodes[stack[--sp]];
    if (!hit(n, r)) continue;
    if (n.count > 0) { found += n.first * 10 + n.count; }
    else { stack[sp++] = n.left; stack[sp++] = n.right; }
  }
  hits[id] = found;
}
