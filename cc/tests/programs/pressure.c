/* more values at once than there are registers */
#include "os.h"
#include <stdint.h>
#include <stdbool.h>
int in[32], out[4];
static int mix(int x, int y) { return (x << 3 ^ y >> 2) + (x > y ? in[x & 31] : 7); }
TASK(Main) {
  for (int i = 0; i < 32; i++) in[i] = i * i * 3 - 77;
  int a = in[0], b = in[1], c = in[2], d = in[3], e = in[4], f = in[5], g = in[6], h = in[7], i = in[8],
    j = in[9], k = in[10], l = in[11], m = in[12], n = in[13], o = in[14], p = in[15],
      q = in[16], r = in[17], s = in[18], t = in[19], u = in[20], v = in[21], w = in[22], x = in[23],
        y = in[24], z = in[25], A = in[26], B = in[27], C = in[28], D = in[29], E = in[30];
  for (int round = 0; round < 4; round++) {
    a += mix(b, c); b ^= c + d; c -= e * 5; d += f; e ^= g - h; f += i; g -= j; h += k; i ^= l; j += m; k -= n;
      l += o; m ^= p; n += q; o -= r; p += s; q ^= t; r += u; s -= v; t += w; u ^= x; v += y; w -= z; x += A;
      y ^= B; z += C; A -= D; B += E; C ^= a; D += b; E -= c;
  }
  out[0] = a + b + c + d + e + f + g + h; out[1] = i ^ j ^ k ^ l ^ m ^ n ^ o ^ p;
    out[2] = q + r + s + t + u + v + w + x; out[3] = y ^ z ^ A ^ B ^ C ^ D ^ E;
  TerminateTask();
}
