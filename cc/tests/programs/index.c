/* indices with and without masks, shifts and bounds */
#include "os.h"
#include <stdint.h>
#include <stdbool.h>
int32_t words[16]; int16_t halves[10]; uint8_t bytes[6]; int32_t one[1]; int r[40]; volatile int s;
TASK(Main) {
  for (int i = 0; i < 16; i++) words[i] = i * 7 - 20;
  for (int i = 0; i < 10; i++) halves[i] = i * -9;
  for (int i = 0; i < 6; i++) bytes[i] = i * 51;
  for (int i = 0; i < 20; i++) {
    int8_t n = i * 11 - 120; uint8_t u = i + 240; s = i * 5;
    r[i] = words[n >> 2 & 15] + halves[i >> 1] + halves[s >> 4 & 7] + bytes[u & 3] + words[u % 16];
    r[i + 20] = words[(uint32_t)(i << 28) >> 28] + words[i >> 2 & 15] + bytes[i / 4] - halves[9 - i / 2];
    words[s >> 2 & 15]++; one[0] += i; one[i & 0] ^= s;
  }
  TerminateTask();
}
