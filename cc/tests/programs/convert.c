/* conversions between all types, as values, arguments and results */
#include "os.h"
#include <stdint.h>
#include <stdbool.h>
volatile int8_t a = -100; volatile uint8_t b = 200; volatile int16_t c = -30000; volatile uint16_t d = 60000;
  volatile int32_t e = -2000000000; volatile uint32_t f = 4000000000U;
int32_t r[24]; uint32_t q[12];
static int8_t n8(int8_t x) { return x; }
static uint16_t n16(uint16_t x) { return x; }
TASK(Main) {
  r[0] = (uint8_t)a; r[1] = (int8_t)b; r[2] = (uint16_t)c; r[3] = (int16_t)d; r[4] = (int8_t)e;
    r[5] = (uint8_t)f; r[6] = (int16_t)f; r[7] = (uint16_t)e;
  r[8] = n8(b); r[9] = n8(d); r[10] = n16(a); r[11] = n16(e); r[12] = (bool)a; r[13] = (int8_t)(b + d);
    r[14] = (uint8_t)(a * c); r[15] = (char)a;
  q[0] = a; q[1] = b; q[2] = c; q[3] = d; q[4] = e; q[5] = f; q[6] = (uint32_t)a >> 4; q[7] = (uint8_t)a >> 1;
    q[8] = a >> 1; q[9] = (int32_t)f >> 3; q[10] = (uint16_t)(a - b); q[11] = -f;
  a = 300; b = -1; c = 70000; d = -2; r[16] = a; r[17] = b; r[18] = c; r[19] = d; a += b; b += c; c += e;
    d += f; r[20] = a; r[21] = b; r[22] = c; r[23] = d;
  TerminateTask();
}
