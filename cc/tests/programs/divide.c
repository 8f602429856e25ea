/* quotients and rests: by numbers, by variables, by zero's neighbours */
#include "os.h"
#include <stdint.h>
#include <stdbool.h>
volatile int32_t a = -1000003; volatile uint32_t b = 3999999999U; volatile int32_t d = -17;
  volatile uint32_t e = 65537;
int32_t r[24]; uint32_t q[20];
TASK(Main) {
  int32_t x = a; uint32_t y = b;
  r[0] = x / 2; r[1] = x % 2; r[2] = x / 64; r[3] = x % 64; r[4] = x / 3; r[5] = x % 3; r[6] = x / -8;
    r[7] = x % -8; r[8] = x / 10; r[9] = x % 10; r[10] = x / d; r[11] = x % d; r[12] = -x / d; r[13] = -x % d;
  r[14] = x / 0x40000000; r[15] = x % 0x40000000; r[16] = (int8_t)x / 3; r[17] = (int8_t)x % 4; r[18] = x / 1;
    r[19] = x % 1; r[20] = (x & 255) / 7; r[21] = (x & 255) % 7; r[22] = x / 1000 / 1000; r[23] = d / x;
  q[0] = y / 2; q[1] = y % 2; q[2] = y / 3; q[3] = y % 1000; q[4] = y / e; q[5] = y % e;
    q[6] = y / 0x80000000u; q[7] = y % 0x80000000u; q[8] = y / 0xffffffffu; q[9] = y % 0xfffffffeu;
    q[10] = e / y; q[11] = e % y; q[12] = x / 2u; q[13] = x % 7u; q[14] = y / y; q[15] = (uint16_t)y / 9;
    q[16] = y / 10 % 10; q[17] = y - y / 97 * 97;
  y /= 5; q[18] = y; y %= 1024; q[19] = y;
  TerminateTask();
}
