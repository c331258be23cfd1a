// The inner loop of a product of matrices of 16 columns, over and over.
__kernel void bench(__global int *a, int n)
{
  int g = get_global_id(0);
  int row = g / 16 * 16;
  int column = g % 16;
  int sum = 0;
  for (int i = 0; i < n; i++)
    for (int k = 0; k < 16; k++)
      sum += a[row + k] * a[k * 16 + column];
  a[get_global_size(0) + g] = sum;
}
