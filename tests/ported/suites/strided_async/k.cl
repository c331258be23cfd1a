__kernel void cols(__global const int *in, __global int *out, const int w)
{
  __local int col[4];
  event_t e = async_work_group_strided_copy(col, in + get_group_id(0), (size_t)4, (size_t)w, 0);
  wait_group_events(1, &e);
  out[get_global_id(0)] = col[3 - get_local_id(0)];
}
