int twice(int n) { return n + n; }

__kernel void k(__global int *a) {
    int n = 5;
    a[0] = n * n;
    a[1] = twice(4);
    int x;
    if (1)
        x = 2;
    else
        x = 3;
    if (x == 2)
        a[2] = 1;
    else
        a[2] = 4;
    a[3] = min(7, 3) + clamp(9, 0, 5) + (int)abs(-4);
    uchar c = 300;
    a[4] = c + (short)70000;
    a[5] = (1 << 33) + 7 % 0;
    a[6] = 1 ? a[0] : a[9];
    a[7] = 0 && a[0];
    for (; 0;)
        a[0] = 5;
    int m = 5;
    if (a[1])
        m = 6;
    a[8] = m * m;
}
