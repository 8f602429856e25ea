/* each operator on all pairs of six values of int16_t */
#include "os.h"
#include <stdint.h>
#include <stdbool.h>
static const int16_t values[6] = { -32768, -255, -1, 0, 3, 32767 };
int32_t signed_sum[18];
uint32_t unsigned_sum[18];
int16_t stored[8];
static void note(uint32_t k, int32_t v) { signed_sum[k] = signed_sum[k] * 31 + v;
  unsigned_sum[k] = (unsigned_sum[k] ^ (uint32_t)v) * 5u + 1u; }
TASK(Main) {
  for (uint32_t i = 0; i < 6; i++)
    for (uint32_t j = 0; j < 6; j++) {
      int16_t a = values[i], b = values[j];
      note(0, a + b); note(1, a - b); note(2, a * b); note(3, a & b); note(4, a | b); note(5, a ^ b);
      note(6, a < b); note(7, a <= b); note(8, a == b); note(9, a != b); note(10, a > b); note(11, a >= b);
      note(12, a << (b & 15)); note(13, a >> (b & 7)); note(14, b == 0 || b + 1 == 0 ? a : a / b);
        note(15, b == 0 || b + 1 == 0 ? b : a % b);
      note(16, a && !b); note(17, -a + ~b);
      stored[0] += a; stored[1] -= b; stored[2] = a * b; stored[3] = a << 3; stored[4] = stored[4] >> 1 ^ b;
        stored[5] |= a & b; stored[6] = -b; stored[7]++;
    }
  TerminateTask();
}
