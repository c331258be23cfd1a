__kernel void k(__global int4 *a)
{
  int i = get_global_id(0);
  uchar4 v = (uchar4)(a[i].x, a[i].y, a[i].z, a[i].w);
  a[i] = (int4)(v.x, v.y, v.z, v.w);
}
