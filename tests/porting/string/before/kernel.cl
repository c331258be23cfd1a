__constant char text[] = "az";
__kernel void k(__global int *a)
{
  int i = get_global_id(0);
  a[i] += text[i % 3];
}
