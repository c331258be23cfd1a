__constant short c[3] = { 1, -2 }, d = 70000;
__kernel __attribute__((reqd_work_group_size(4, 1 + 1, 1))) void k(__constant short *p, __global int *a) {
a[0] = c[2] + d + *p;
if (a[0] > 0) a[1] = 1; else do a[2]--; while (a[2] != 0);
barrier(CLK_LOCAL_MEM_FENCE);
while (true) { if (a[3]) break; continue; }
return;
}