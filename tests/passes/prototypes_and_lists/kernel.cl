int g(__private uchar *p, const int n);
__kernel __attribute__((reqd_work_group_size(9, 9, 9))) void k(__global int *a);
__attribute__((reqd_work_group_size(8, 1, 1))) __kernel __attribute__((reqd_work_group_size(2, 2, 1)))
void k(__global int *a) {
uchar t[2][2], *q = t[1], u[] = { 300, a[0] };
t[1][0] = *q;
q += 1;
a[0] = g(q, *(u + 1)) + g(&u[a[1]], 2);
}
int g(uchar *r, int m) { return r[m]; }
