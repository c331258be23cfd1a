__global int *row(__global int *m, const int y, const int w) { return m + y * w; }
__local uint *slot(__local uint *base, uint l) { return &base[l * 2]; }
inline __global const int *at(__global const int *m, int x) { return &m[x]; }
__kernel void rp(__global int *m, __global int *o, const int w)
{
  __local uint s[8];
  const int y = get_global_id(0);
  __global int *r = row(m, y, w);
  __local uint *p = slot(s, get_local_id(0));
  p[0] = r[1]; p[1] = *row(m, y, w);
  barrier(CLK_LOCAL_MEM_FENCE);
  r[0] = p[1] + slot(s, get_local_size(0) - 1 - get_local_id(0))[0];
  *(row(o, y, 1)) = *at(m, y * w + 2) + at(m, y * w)[3];
}
