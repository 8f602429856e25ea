/* comparisons and conversions that ranges decide, at their edges */
#include "os.h"
#include <stdint.h>
#include <stdbool.h>
volatile uint8_t a = 255, b; volatile int8_t c = -128; volatile uint16_t d = 65535; int r[27];
TASK(Main) {
  uint8_t x = a, y = b; int8_t z = c; uint16_t w = d;
  r[0] = x < 256; r[1] = x > 255; r[2] = x >= 0; r[3] = z >= -128; r[4] = z < -128; r[5] = w <= 65535;
    r[6] = x + 1 > 255; r[7] = x - y > 254; r[8] = (x & 15) < 16; r[9] = (x & 15) > 14; r[10] = (x >> 4) == 15;
    r[11] = (x << 1) > 255;
  r[12] = (uint8_t)(x + 1) == 0; r[13] = (int8_t)x == -1; r[14] = (uint8_t)z == 128; r[15] = (x % 16) < 16;
    r[16] = z % 8 > -8; r[17] = -z == 128; r[18] = (int8_t)-z == -128; r[19] = x * x == 65025;
    r[20] = (x ? z : y) < 0; r[21] = (uint16_t)(w + 1) < 1; r[22] = (x | y) <= 255; r[23] = (z ^ x) < 0;
  r[24] = ((x & 5) | (w & 2)) > 5;
  r[25] = (x & 15) < 15;
  r[26] = ((x & 8) ^ (w & 7)) > 8;
  TerminateTask();
}
