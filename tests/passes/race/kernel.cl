// All work-items store to one element, and nothing orders them: a race.
__kernel void race(__global int *a)
{
  a[0] = get_global_id(0);
}
