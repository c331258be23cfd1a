#define F(x,y,z) ((x)^(y)^(z))
#define G(x,y,z) (((x)&(y))|(~(x)&(z)))
#define ROL(x,n) (((x) << (n)) | ((x) >> (32-(n))))
#define RND(f,a,b,c,d,e,x,s,k) a = ROL(a + f(b,c,d) + x + k, s) + e; c = ROL(c, 10)
__constant int RL[] = { 0,1,2,3,4,5,6,7,8,9,10,11,12,13,14,15, 7,4,13,1,10,6,15,3,12,0,9,5,2,14,11,8 };
__constant int SL[] = { 11,14,15,12,5,8,7,9,11,13,14,15,6,7,9,8, 7,6,8,13,11,9,7,15,7,12,15,9,11,7,13,12 };
__kernel void rmd(__global uint (*in)[16], __global uint *out)
{
  uint s[5], *p = s;
  for (int i = 0; i < 5; i++) *p++ = 0x01234567u * (i + 1);
  for (int j = 0; j < sizeof(RL) / sizeof(RL[0]); j++) {
    uint x = in[get_global_id(0)][RL[j]];
    if (j < 16) { RND(F, s[0], s[1], s[2], s[3], s[4], x, SL[j], 0); }
    else { RND(G, s[0], s[1], s[2], s[3], s[4], x, SL[j], 0x5a827999u); }
    uint t = s[4]; s[4] = s[3]; s[3] = s[2]; s[2] = s[1]; s[1] = s[0]; s[0] = t;
  }
  for (p = s; p < s + 5; ++p) out[get_global_id(0) * 5 + (p - s)] = *p;
}
