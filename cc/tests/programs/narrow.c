/* counters and stores of small types that wrap */
#include "os.h"
#include <stdint.h>
#include <stdbool.h>
int8_t a = 120; uint8_t b = 250; int16_t c = 32760; uint16_t d = 65530; int8_t t8[4]; uint16_t t16[4];
  int log_[8];
TASK(Main) {
  for (int i = 0; i < 12; i++) { a++; b++; c++; d++; t8[i & 3] += 50; t16[i & 3] -= 7000; if (a < 0) log_[0]++;
    if (b < 5) log_[1]++; if (c < 0) log_[2]++; if (d == 0) log_[3] = i; }
  int8_t l = 127; l++; log_[4] = l; uint8_t m = 0; m--; log_[5] = m; l = l - 1; log_[6] = l;
    int16_t n = 0x7fff; n += m; log_[7] = n;
  TerminateTask();
}
