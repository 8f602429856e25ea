/* calls of calls with eight parameters, and results of all types */
#include "os.h"
#include <stdint.h>
#include <stdbool.h>
int32_t out[6];
static int8_t low(int32_t x) { for (int i = 0; i < 1; i++) x += i; return x; }
static uint16_t middle(int32_t x) { switch (x & 1) { case 0: return x + 1; } return low(x) - 1; }
static int32_t all(int8_t a, uint8_t b, int16_t c, uint16_t d, int32_t e, uint32_t f, bool g, char h) {
  int32_t sum = 0;
  for (int i = 0; i < 2; i++) sum += a * 2 + b * 3 - c + d * 5 - e + (int32_t)(f >> 1) + g * 1000 + h;
  return sum + middle(e) + low(c);
}
TASK(Main) {
  out[0] = all(1, 2, 3, 4, 5, 6, 7, 8);
  out[1] = all(300, 300, 70000, 70000, -1, -1, 0, 256 + 65);
  out[2] = all(low(200), middle(-3), out[0], out[1], middle(4), low(5), out[0] & 1, 'x');
  out[3] = middle(middle(middle(7))); out[4] = low(middle(129)) + low(-129);
    out[5] = all(out[0], out[1], out[2], out[3], out[4], 1, 1, 1);
  TerminateTask();
}
