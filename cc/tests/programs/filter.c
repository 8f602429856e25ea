/* a low pass, a median of three, and hysteresis over a noisy signal */
#include "os.h"
#include <stdint.h>
#include <stdbool.h>
uint16_t noise = 0xACE1; int16_t smooth[16], median[16]; uint8_t on[16]; int32_t energy;
static int16_t mid(int16_t a, int16_t b, int16_t c) {
  return a > b ? (b > c ? b : a > c ? c : a) : (a > c ? a : b > c ? c : b); }
TASK(Main) {
  int32_t low = 0; int16_t old = 0, older = 0; bool is_on = false;
  for (int i = 0; i < 16; i++) {
    noise = noise >> 1 ^ (-(noise & 1) & 0xB400u);
    int16_t s = (int16_t)(noise & 1023) - 512;
    low += ((int32_t)s * 256 - low) >> 2; smooth[i] = low >> 8;
    median[i] = mid(s, old, older); older = old; old = s;
    if (s > 200) is_on = true; else if (s < -200) is_on = false;
    on[i] = is_on; energy += s * s;
  }
  TerminateTask();
}
