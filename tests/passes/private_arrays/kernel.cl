// Private arrays with and without values, one of them in a called function, kept across a barrier.
int last(int n) {
  int own[4] = { 1, 2 };
  own[3] = n;
  return own[n & 3];
}
__kernel void keep(__global int *a) {
  int l = get_local_id(0);
  long t[2][3];
  t[1][2] = last(l);
  barrier(CLK_GLOBAL_MEM_FENCE);
  a[l] = t[1][2] + last(1);
}
