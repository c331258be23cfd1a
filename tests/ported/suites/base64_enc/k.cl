__constant char b64[] = "ABCDEFGHIJKLMNOPQRSTUVWXYZabcdefghijklmnopqrstuvwxyz0123456789+/";
__kernel void encode(__global const uchar *in, __global char *out, const uint len)
{
  size_t g = get_global_id(0);
  if (g * 3 >= len) return;
  uchar3 t = (uchar3)(in[3 * g], 3 * g + 1 < len ? in[3 * g + 1] : 0, 3 * g + 2 < len ? in[3 * g + 2] : 0);
  uint v = ((uint)t.x << 16) | ((uint)t.y << 8) | t.z;
  __global char *o = out + 4 * g;
  *o++ = b64[v >> 18];
  *o++ = b64[(v >> 12) & 63];
  *o++ = 3 * g + 1 < len ? b64[(v >> 6) & 63] : '=';
  *o = 3 * g + 2 < len ? b64[v & 63] : '=';
}
__kernel void decode(__global const char *in, __global uchar *out)
{
  uint v = 0;
  for (int i = 0; i < 4; i++) {
    char c = in[get_global_id(0) * 4 + i];
    int d = -1;
    if (c >= 'A' && c <= 'Z') d = c - 'A';
    else if (c >= 'a' && c <= 'z') d = c - 'a' + 26;
    else if (c >= '0' && c <= '9') d = c - '0' + 52;
    else if (c == '+') d = 62;
    else if (c == '/') d = 63;
    v = v << 6 | (d < 0 ? 0 : d);
  }
  vstore3((uchar3)(v >> 16, v >> 8, v), get_global_id(0), out);
}
