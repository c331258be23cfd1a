enum { S0, S1, S2, ACCEPT, NSTATES };
enum class_t { C_A, C_B, C_OTHER, NCLASSES };
__constant uchar trans[NSTATES][NCLASSES] = {
  [S0] = { S1, S0, S0 },
  [S1] = { S1, S2, S0 },
  [S2] = { ACCEPT, S0, S0 },
  [ACCEPT] = { ACCEPT, ACCEPT, ACCEPT },
};
static enum class_t classify(char c)
{
  switch (c) {
    case 'a': case 'A': return C_A;
    case 'b':
    case 'B': return C_B;
    default: return C_OTHER;
  }
}
__kernel void match(__constant char *text, __constant int *start, __global int *end)
{
  int i = get_global_id(0), p = start[i], stop = start[i + 1];
  uchar st = S0;
  end[i] = -1;
  while (p < stop) {
    st = trans[st][classify(text[p++])];
    if (st == ACCEPT) { end[i] = p; break; }
  }
}
