__kernel void k(__global int *a) {
int s = 0;
switch (a[0]) {
case 1: s += 1;
case 2:
case -3: s = 2; break;
default: s = 9; case 7: ; }
switch ((uint)s) { case -1: ; }
}