__kernel void k(__global int *a)
{
  int i = get_global_id(0);
  __local int t[4];
  event_t e = async_work_group_copy(t, a, 4, 0);
  wait_group_events(1, &e);
  a[i] = t[3 - i];
}
