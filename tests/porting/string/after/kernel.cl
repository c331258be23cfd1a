__constant char text[] = { 97, 122, 0 };
__kernel void k(__global int *a)
{
  int i = get_global_id(0);
  a[i] += text[i % 3];
}
