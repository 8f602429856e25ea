/* a controller with limits against a simple plant */
#include "os.h"
#include <stdint.h>
#include <stdbool.h>
int32_t set = 1000, speed, integral, last; int16_t output, history[12];
static int32_t limited(int32_t v, int32_t low, int32_t high) { return v < low ? low : v > high ? high : v; }
TASK(Main) {
  for (int i = 0; i < 12; i++) {
    int32_t error = set - speed;
    integral = limited(integral + error, -5000, 5000);
    output = limited((error * 60 + integral * 8 + (error - last) * 20) / 64, -700, 700);
    last = error; speed += (output - speed / 8) / 4; history[i] = speed;
    if (i == 6) set = -200;
  }
  TerminateTask();
}
