/* products by numbers and by variables, and their high halves */
#include "os.h"
#include <stdint.h>
#include <stdbool.h>
volatile int32_t a = 12345, b = -6789; volatile uint32_t c = 3000000019U; volatile int16_t d = -321;
int32_t r[18]; uint32_t q[8];
TASK(Main) {
  int32_t x = a; r[0] = x * 0; r[1] = x * 1; r[2] = x * -1; r[3] = x * 2; r[4] = x * 3; r[5] = x * 7;
    r[6] = x * 10; r[7] = x * 100; r[8] = x * 1000; r[9] = x * -15; r[10] = x * 0x55555555;
    r[11] = x * 2147483647; r[12] = x * (-2147483647 - 1); r[13] = x * b; r[14] = b * b * b; r[15] = d * d;
    r[16] = 3 * d - d * 5; r[17] = x * d + b * x;
  q[0] = c * 3; q[1] = c * 0xffffffffU; q[2] = c * c; q[3] = c * a; q[4] = c * 1103515245u + 12345u;
  uint32_t xl = c & 0xffff, xh = c >> 16, low = xl * xl, mid = xl * xh;
    q[5] = xh * xh + (mid >> 15) + ((low + (mid << 17 >> 1 << 1)) < low); q[6] = low; q[7] = mid;
  TerminateTask();
}
