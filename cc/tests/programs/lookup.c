/* a table with interpolation, and a search by halves */
#include "os.h"
#include <stdint.h>
#include <stdbool.h>
static const int16_t x[8] = { -400, -100, 0, 50, 120, 300, 800, 2000 }; static const int16_t y[8] = {
  5, 20, 100, 180, 240, 260, 265, 270 };
int16_t out[12]; uint8_t steps;
static int16_t at(int16_t v) {
  if (v <= x[0]) return y[0];
  for (int i = 1; i < 8; i++) if (v < x[i]) return y[i - 1] + (int32_t)(y[i] - y[i - 1]) * (v - x[i - 1]) /
    (x[i] - x[i - 1]);
  return y[7];
}
TASK(Main) {
  for (int i = 0; i < 12; i++) out[i] = at(i * 250 - 600);
  uint8_t low = 0, high = 8; while (low + 1 < high) { uint8_t m = (low + high) / 2; if (x[m] <= 130) low = m;
    else high = m; steps++; } out[11] += low * 1000;
  TerminateTask();
}
