/* constant expressions, enumerations, sizes, characters, initial values */
#include "os.h"
#include <stdint.h>
#include <stdbool.h>
enum colour { RED, GREEN = 5, BLUE, DARK = -4, MIX = GREEN * BLUE + (DARK << 1) };
enum state { OFF = 1, ON = 250 };
enum state state = ON;
int table[GREEN + 2] = { RED, BLUE, [4] = DARK, MIX };
uint8_t letters[] = { 'a', '\n', '\x7e', '\'', '\\', '\0', '\377', '"', '\t' };
int32_t a = -7 / 2 + 9 % 4 * (6 > 2 ? 10 : 20), b = ~0x0f ^ 3, c = !4 || 2 && 6,
  d = sizeof(table) / sizeof table[0], e = sizeof letters;
uint32_t f = 0xffffffffU + 3, g = 4u - 9u, h = 017 + 0x1F; uint16_t cut = 0x54321; int8_t wrapped = 200;
  const int limit = 11; static const uint8_t step = 4;
int out[8];
TASK(Main) { out[0] = MIX; out[1] = DARK; out[2] = limit * step; out[3] = state == ON; out[4] = OFF - 2 < 0;
  out[5] = table[step]; out[6] = letters[GREEN]; out[7] = -limit / step; TerminateTask(); }
