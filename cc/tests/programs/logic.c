/* && || ! ?: and comparisons as values and as conditions, with their effects */
#include "os.h"
#include <stdint.h>
#include <stdbool.h>
int r[20], n; volatile int one = 1, zero, five = 5;
static int hit(int v) { n = n * 3 + v; return v; }
TASK(Main) {
  r[0] = hit(0) && hit(1); r[1] = hit(1) && hit(2); r[2] = hit(0) || hit(0); r[3] = hit(2) || hit(1);
    r[4] = !hit(3); r[5] = !!five;
  r[6] = one && zero || five; r[7] = !(one && (zero || five)); r[8] = one ? zero ? 1 : 2 : 3;
    r[9] = (one == five) == zero; r[10] = one < five && five < 9 && !(five > 5);
  if (!(one && zero) && (zero || !zero)) r[11] = 4; if (one || hit(7)) r[12]++;
    while (r[13] < 4 && (one || zero)) r[13] += 1 + (r[13] == 2);
  r[14] = (one, zero, five); r[15] = one ? (zero, 6) : 7; r[16] = (five > 3) + (five > 4) * 2 + (five > 5) * 4;
    r[17] = -(five == 5) & 0xf0; r[18] = five >= 5 ? hit(1), 8 : hit(2);
  r[19] = 1 && 0 || 2 && (3 || hit(9));
  TerminateTask();
}
