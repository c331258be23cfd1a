#define F(x,y,z) ((x & y) | ((~x) & z))
#define G(x,y,z) ((x & z) | (y & (~z)))
#define ROTATE_LEFT(x, n) ((x << n) | (x >> (32-n)))
#define FF(a, b, c, d, x, s, ac) { a += F(b, c, d) + x + ac; a = ROTATE_LEFT(a, s); a += b; }
#define GG(a, b, c, d, x, s, ac) { a += G(b, c, d) + x + ac; a = ROTATE_LEFT(a, s); a += b; }
inline void md5_2words(unsigned int *words, unsigned int len, unsigned int *digest)
{
  const unsigned int h0 = 0x67452301, h1 = 0xefcdab89, h2 = 0x98badcfe, h3 = 0x10325476;
  unsigned int a = h0, b = h1, c = h2, d = h3;
  unsigned int WL = len * 8;
  unsigned int W0 = words[0], W1 = words[1];
  switch (len) {
    case 1: W0 |= 0x00008000; break;
    case 2: W0 |= 0x00800000; break;
    case 3: W0 |= 0x80000000; break;
    case 4: W1 |= 0x00000080; break;
    case 5: W1 |= 0x00008000; break;
  }
  FF(a, b, c, d, W0, 7, 0xd76aa478); FF(d, a, b, c, W1, 12, 0xe8c7b756); FF(c, d, a, b, 0, 17, 0x242070db);
  FF(b, c, d, a, WL, 22, 0xc1bdceee); GG(a, b, c, d, W1, 5, 0xf61e2562); GG(d, a, b, c, 0, 9, 0xc040b340);
  digest[0] = h0 + a; digest[1] = h1 + b; digest[2] = h2 + c; digest[3] = h3 + d;
}
inline void IndexToKey(unsigned int index, int byteLength, int valsPerByte, unsigned char vals[8])
{
  vals[0] = index % valsPerByte; index /= valsPerByte;
  vals[1] = index % valsPerByte; index /= valsPerByte;
  vals[2] = index % valsPerByte; index /= valsPerByte;
  vals[3] = index % valsPerByte; vals[4] = vals[5] = vals[6] = vals[7] = 0;
}
__kernel void FindKeyWithDigest_Kernel(unsigned int searchDigest0, unsigned int searchDigest1, unsigned int searchDigest2, unsigned int searchDigest3,
  int keyspace, int byteLength, int valsPerByte, __global int *foundIndex, __global unsigned char *foundKey, __global unsigned int *foundDigest)
{
  int threadid = get_global_id(0);
  int startindex = threadid * valsPerByte;
  unsigned char key[8] = {0,0,0,0, 0,0,0,0};
  IndexToKey(startindex, byteLength, valsPerByte, key);
  for (int j = 0; j < valsPerByte && startindex + j < keyspace; ++j) {
    unsigned int digest[4];
    md5_2words((unsigned int *)key, byteLength, digest);
    if (digest[0] == searchDigest0 || (digest[1] & 3) == searchDigest1) {
      foundIndex[threadid] = startindex + j;
      foundKey[threadid] = key[0];
      foundDigest[threadid] = digest[0];
    }
    ++key[0];
  }
}
