__kernel void kept(__global int *a) {
  int l = get_local_id(0);
  int own = a[get_global_id(0)];
  int all = get_group_id(0) * 100;
  int times = 3;
  barrier(CLK_LOCAL_MEM_FENCE);
  if (l == 1) own = own * 10;
  barrier(CLK_LOCAL_MEM_FENCE);
  all = all + 1;
  barrier(CLK_LOCAL_MEM_FENCE);
  own = own + all;
  barrier(CLK_LOCAL_MEM_FENCE);
  all = 7;
  for (int i = 0; i < l; i++) times = times + i;
  barrier(CLK_LOCAL_MEM_FENCE);
  a[get_global_id(0)] = own + all + times;
}
