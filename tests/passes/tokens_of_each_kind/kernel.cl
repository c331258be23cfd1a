#define A B
#define B A
#define E
#define C x \
 + y
__constant int t[] = { 0, 07, 0x1f, 10u, 10LU, 4294967295 };
/* a // */ void f(int a, int b, int A, int x, int y, int s)
{
  a+++b; a>>=b<<s<=b>s; E b = a/**/-/***/y/* * / */* x;// b */ c
  A, C;
  a&&b|s^x,a=~b;
}
__kernel void k(__global int *a) { a[0] = CHAR_BIT + INT_MIN; }
