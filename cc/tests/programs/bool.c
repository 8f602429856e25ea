/* values of _Bool: conversions, stores, and sums */
#include "os.h"
#include <stdint.h>
#include <stdbool.h>
bool a = 7, b = 0, many[4] = { 2, 0, 256, -1 };
int r[10];
static bool is_odd(int x) { return x & 1; }
static bool is_big(int x) { return x & 0x10000; }
TASK(Main) {
  bool c = 256; uint8_t d = 256;
  r[0] = a + a; r[1] = c; r[2] = d; a ^= 1; r[3] = a; b |= 4; r[4] = b; r[5] = is_odd(7) + is_odd(8);
    r[6] = is_big(0x30000);
  b = r[6] - 1; r[7] = b; c = !c; r[8] = -c; many[1] += 5; many[2]--; many[3] = r[7] >= 1; r[9] = ~many[0];
  TerminateTask();
}
