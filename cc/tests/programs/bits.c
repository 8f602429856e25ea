/* bits counted, turned round, and found */
#include "os.h"
#include <stdint.h>
#include <stdbool.h>
uint32_t words[5] = { 0, 1, 0x80000000U, 0xdeadbeefU, 0x00ff00f0U }, turned[5];
uint8_t counted[5], first[5], parity;
static uint8_t ones(uint32_t w) { w -= w >> 1 & 0x55555555u; w = (w & 0x33333333u) + (w >> 2 & 0x33333333u);
  w = (w + (w >> 4)) & 0x0f0f0f0fu; return w * 0x01010101u >> 24; }
TASK(Main) {
  for (int i = 0; i < 5; i++) {
    uint32_t w = words[i], t = 0;
    counted[i] = ones(w);
    for (int k = 0; k < 32; k++) { t = t << 1 | (w & 1); w >>= 1; }
    turned[i] = t;
    w = words[i];
    while (first[i] < 32 && !(w & 1)) { w >>= 1; first[i]++; }
    parity ^= counted[i] & 1;
  }
  TerminateTask();
}
