/* numbers as decimal and hexadecimal digits, and back */
#include "os.h"
#include <stdint.h>
#include <stdbool.h>
uint8_t text[12], hex[8]; uint32_t back, count; int32_t value = -90210;
TASK(Main) {
  uint32_t n = value < 0 ? -(uint32_t)value : value; uint8_t k = 0;
  do { text[k++] = '0' + n % 10; n /= 10; } while (n);
  if (value < 0) text[k++] = '-';
  for (uint8_t i = 0; i < k / 2; i++) { uint8_t t = text[i]; text[i] = text[k - 1 - i]; text[k - 1 - i] = t; }
  count = k;
  for (int i = 7; i >= 0; i--) { uint8_t d = (uint32_t)value >> (28 - i * 4) & 15;
    hex[i] = d < 10 ? '0' + d : 'a' + d - 10; }
  for (uint8_t i = 1; i < k; i++) back = back * 10 + text[i] - '0';
  TerminateTask();
}
