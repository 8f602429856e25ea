/* operators between different types */
#include "os.h"
#include <stdint.h>
#include <stdbool.h>
volatile int8_t a = -5; volatile uint8_t b = 250; volatile int16_t c = -300; volatile uint16_t d = 65000;
  volatile int32_t e = -70000; volatile uint32_t f = 4000000000U;
int r[26]; uint32_t q[14];
static uint16_t zero_or(int8_t x) { return x ? x : 0; }
TASK(Main) {
  r[0] = a < b; r[1] = a < f; r[2] = c < d; r[3] = e < f; r[4] = b + b; r[5] = b * b * b;
    r[6] = (uint8_t)(b + b); r[7] = a >> 1; r[8] = b >> 1; r[9] = (int8_t)b >> 1; r[10] = ~b; r[11] = -d;
    r[12] = !a;
  r[13] = d * 2; r[14] = c / 7; r[15] = c % 7; r[16] = a == (uint8_t)a; r[17] = (uint32_t)a == a;
    r[18] = b - 251 < 0; r[19] = f - 1 > 0; r[20] = -1 < 0u; r[21] = (uint16_t)-1 < 0; r[22] = b << 24;
    r[23] = b << 24 >> 24; r[24] = 1 ? a : f; r[25] = (zero_or(a)) > -1;
  q[0] = 1 ? a : f; q[1] = a * f; q[2] = d << 16; q[3] = f / 3; q[4] = f % 1000; q[5] = e / 2u; q[6] = e / 2;
    q[7] = f >> 4; q[8] = e >> 4; q[9] = e & d; q[10] = a | d; q[11] = c ^ f; q[12] = a - f;
    q[13] = (e > 0) - 1u;
  a += 200; b -= 251; c *= 200; d <<= 3; e >>= 3; f /= 7; a++; b--; c--; ++d;
  TerminateTask();
}
