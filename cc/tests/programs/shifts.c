/* shifts by numbers and variables, at their edges */
#include "os.h"
#include <stdint.h>
#include <stdbool.h>
volatile int32_t a = -123456789; volatile uint32_t b = 0x90abcdefU; volatile int8_t c = -77; int32_t r[12];
  uint32_t q[12];
TASK(Main) {
  for (int i = 0; i < 32; i += 3) { r[0] ^= a >> i; r[1] += a << i; q[0] ^= b >> i; q[1] += b << i;
    r[2] += c >> i; r[3] ^= c << i; }
  r[4] = a >> 31; r[5] = a << 31; q[4] = b >> 31; q[5] = b << 31; r[6] = (uint8_t)c << 3 >> 4; r[7] = c >> 7;
    q[6] = (b >> 7 | b << 25); q[7] = 1u << (b & 31); r[8] = 1 << 31 >> 31; q[8] = ~0u >> 5 << 5;
  r[9] = a; r[9] >>= 5; r[9] <<= 2; q[9] = b; q[9] <<= c & 7; q[10] = (uint16_t)b >> 4;
    r[10] = (int16_t)b >> 4; r[11] = a >> (c & 31); q[11] = (b << 4 | b >> 28) ^ b >> 0;
  TerminateTask();
}
