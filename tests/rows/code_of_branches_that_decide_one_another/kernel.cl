__kernel void k(__global int *a) {
    int x = 1 ? 2 : 3;
    if (x == 2)
        a[0] = 1;
    else
        a[1] = 4;
}
