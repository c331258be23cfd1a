// What is given a name, where it is used, and what is left out.
#define SIZE 4
#define TWICE (2 * SIZE)
__kernel void k(__global int *a) {
#ifdef SIZE
  a[TWICE] = SIZE;
#else
  a[0] = 1;
#endif
#undef SIZE
  a[1] = 0x1Fu;
}
