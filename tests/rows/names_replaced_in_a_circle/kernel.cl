#define A B
#define B A
__kernel void inc(__global int *A) { A[get_global_id(0)] += 1; }
