// Each work-item adds to its own element where it stands: its group and its place in the group.
__kernel void where(__global int *a, int width)
{
  int x = get_global_id(0), y = get_global_id(1);
  a[y * width + x] += 1000 * get_group_id(1) + 100 * get_group_id(0)
                    + 10 * get_local_id(1) + get_local_id(0);
}
