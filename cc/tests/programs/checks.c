/* sums that check messages */
#include "os.h"
#include <stdint.h>
#include <stdbool.h>
uint8_t message[12] = { 'c', 'o', 'n', 't', 'r', 'o', 'l', ' ', 'u', 'n', 'i', 't' };
uint16_t fletcher, crc16; uint32_t crc32, adler; uint8_t xored;
TASK(Main) {
  uint16_t a = 0, b = 0, c = 0xffff; uint32_t d = 0xffffffffU, e = 1, f = 0;
  for (int i = 0; i < 12; i++) {
    a = (a + message[i]) % 255; b = (b + a) % 255;
    c ^= message[i] << 8; for (int k = 0; k < 8; k++) c = c & 0x8000 ? c << 1 ^ 0x1021 : c << 1;
    d ^= message[i]; for (int k = 0; k < 8; k++) d = d & 1 ? d >> 1 ^ 0xedb88320U : d >> 1;
    e = (e + message[i]) % 65521; f = (f + e) % 65521; xored ^= message[i];
  }
  fletcher = b << 8 | a; crc16 = c; crc32 = ~d; adler = f << 16 | e;
  TerminateTask();
}
