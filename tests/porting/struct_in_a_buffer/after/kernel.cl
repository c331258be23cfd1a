#define SIZE 2
#define COUNT 0
#define SUM 1
__kernel void k(__global int *a)
{
  int i = get_global_id(0);
  a[SIZE * i + SUM] = a[SIZE * i + COUNT] * 2;
}
