/* equal sums, and changes of what they are made of between them */
#include "os.h"
#include <stdint.h>
#include <stdbool.h>
volatile int seed = 9;
int r[12];
uint16_t t[8];
static int further(int x) { return x * 5 - 2; }
TASK(Main) {
  int x = seed, y = x - 40, z;
  r[0] = x * 12; ++x; r[1] = x * 12; x -= y; r[2] = x * 12; z = x * 12; z--; r[3] = x * 12; r[4] = z;
  r[5] = (x | y) - (x | y) + (x & y); y = r[5]; r[6] = x & y; x = y; r[7] = x & y;
  r[8] = further(x) ^ further(x); x = further(x); r[9] = further(x);
  t[x & 7] = 3; x >>= 2; t[x & 7] += 5; y = x & 7; x++; t[x & 7] ^= 9; t[y] |= 16; r[10] = x << 4; x = x << 4;
    r[11] = x << 4;
  TerminateTask();
}
