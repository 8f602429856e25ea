/* operands and arguments from left to right, where gcc and C have it so too */
#include "os.h"
#include <stdint.h>
#include <stdbool.h>
int n, r[8], trail[12]; uint8_t at;
static int note(int v) { trail[at++] = v; return v; }
static int three(int a, int b, int c) { return a * 100 + b * 10 + c; }
TASK(Main) {
  n = note(1) ? note(2) : note(3); r[0] = (note(4), note(5)); if (note(0) || note(6) && note(7)) r[1] = note(8);
  int i = 0; r[2] = i++ ? 1 : i; r[3] = (i = 5, i + 1); i += 2; r[4] = three(note(1), 2, 3); do { r[5] += i--;
    } while (i > 3); r[6] = n = 7; r[7] = three(r[6], n, -n);
  TerminateTask();
}
