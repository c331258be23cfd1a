__kernel void k(__global int *a) {
int x = 1;
{ long x = x; a[0] = x; }
for (int i = 0; i < 2; i++) { int i = 1; x = i; }
}
__kernel void other(__global int *b) { b[0] = 1; }
