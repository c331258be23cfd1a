__kernel void k(__global int *a)
{
  int i = get_global_id(0);
  __local int t[2];
  event_t e = async_work_group_strided_copy(t, a, 2, 2, 0);
  wait_group_events(1, &e);
  a[i] = t[i & 1];
}
