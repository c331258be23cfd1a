#define STACK 8
typedef struct { int beg, end; } work_t;
void swap_(__global int *a, __global int *b) { int t = *a; *a = *b; *b = t; }
__kernel void gqsort(__global int *d, const int n)
{
  work_t stack[STACK], cur = { 0, 0 };
  int top = -1;
  const int base = get_global_id(0) * n;
  stack[++top] = (work_t){ base, base + n - 1 };
  while (top >= 0) {
    cur = stack[top--];
    if (cur.beg >= cur.end) continue;
    int pivot = d[(cur.beg + cur.end) >> 1], i = cur.beg, j = cur.end;
    do {
      while (d[i] < pivot) i++;
      while (pivot < d[j]) j--;
      if (i <= j) { swap_(d + i, &d[j]); i++; j--; }
    } while (i <= j);
    work_t left = { cur.beg, j }, right = { i, cur.end };
    if (left.end - left.beg > right.end - right.beg) { stack[++top] = left; stack[++top] = right; }
    else { stack[++top] = right; stack[++top] = left; }
  }
}
