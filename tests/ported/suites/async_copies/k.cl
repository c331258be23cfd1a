__kernel void tile_sum(__global const int4 *in, __global int *out, __local int4 *buf)
{
  const int n = get_local_size(0), l = get_local_id(0);
  event_t e = async_work_group_copy(buf, in + get_group_id(0) * n, n, 0);
  wait_group_events(1, &e);
  int4 v = buf[n - 1 - l];
  __local int res[8];
  res[l] = v.x + v.y + v.z + v.w;
  barrier(CLK_LOCAL_MEM_FENCE);
  event_t ev[2];
  ev[0] = async_work_group_copy(out + get_group_id(0) * n, res, (size_t)n, (event_t)0);
  wait_group_events(1, ev);
}
