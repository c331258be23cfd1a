#define A B
#define B A
#undef INT_MAX
#define INT_MAX 5
#define N 1
#define N 1
#define M 1
#undef M
#define M 2
#define x y
#define y z
#ifdef UNKNOWN
#include x
#define
#define F(x) 1
#else
#ifndef UNKNOWN
#define PLACE 3
#endif z
#endif
#pragma once
#
__kernel void k(__global int *a)
{
  int A = 7, z = 9;
  a[0] = A;
  a[1] = INT_MAX;
  a[2] = N;
  a[3] = M;
  a[4] = PLACE;
  a[5] = x;
}
