/* switches: dense, sparse, with falls, with negative and unsigned cases */
#include "os.h"
#include <stdint.h>
#include <stdbool.h>
int r[10], n[6];
static int name(int x) { switch (x) { case -5: return 1; case 0: return 2; case 7: case 8: return 3;
  case 1000: return 4; case 70000: return 5; case -70000: return 6; default: return 9; } }
static int high(uint32_t x) { switch (x) { case 0: return 1; case 0x80000000u: return 2;
  case 0xffffffffu: return 3; case 5: return 4; } return 0; }
TASK(Main) {
  r[0] = name(-5) + name(0) * 10 + name(7) * 100 + name(8) * 1000;
    r[1] = name(1000) + name(70000) * 10 + name(-70000) * 100 + name(1) * 1000;
    r[2] = high(0) + high(0x80000000u) * 10 + high(-1) * 100 + high(6) * 1000 + high(5) * 10000;
  for (int i = 0; i < 12; i++) switch (i) { case 0: n[0]++; case 1: n[1]++; break;
    case 2: case 3: case 4: n[2] += i; break; case 9: continue; case 10: { int k = i; n[3] += k; } break;
    default: n[4]++; case 11: n[5] += i; }
  switch (3) { case 3: r[3] = 5; break; case 4: r[3] = 6; } switch (r[3]) { default: r[4] = 1; }
    switch ((uint8_t)(r[3] + 251)) { case 0: r[5] = 1; } switch (r[3]) { } switch (r[4]) case 1: r[6] = 3;
  for (int i = 0; i < 5; i++) { switch (i & 3) { case 1: if (i) break; r[7]++; break;
    case 2: for (int j = 0; j < 3; j++) { if (j == 1) break; r[8]++; } break; } r[9] += i; }
  TerminateTask();
}
