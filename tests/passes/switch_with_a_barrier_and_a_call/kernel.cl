// A barrier in an arm of a switch, by way of a call: the variables of the function have two paths.
int meet(__local int *t, int l) {
  int was = t[l];
  barrier(CLK_LOCAL_MEM_FENCE);
  return t[1 - l] + was;
}
__kernel void pick(__global int *a, int n) {
  __local int t[2];
  int l = get_local_id(0);
  t[l] = a[l];
  switch (n) {
    case 1:
      a[l] = meet(t, l);
      break;
    case 2:
    case -3:
      a[l] = 2 * meet(t, l);
    default:
      a[l] += 1;
  }
}
