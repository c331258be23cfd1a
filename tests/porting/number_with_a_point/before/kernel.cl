__kernel void k(__global int *a)
{
  int i = get_global_id(0);
  int sum = 0.0f;
  for (int n = 0; n <= i; n++) sum += n;
  a[i] += sum;
}
