/* names in and out of sight */
#include "os.h"
#include <stdint.h>
#include <stdbool.h>
int x = 1, y[6]; static int hidden(int x) { return x * 2; }
TASK(Main) {
  y[0] = x; int x = 5; y[1] = x; { int x = 9; y[2] = x; { int y2 = x; x = y2 + 1; } } y[3] = x;
  for (int x = 0; x < 3; x++) y[4] += x; y[5] = hidden(x + 1);
  TerminateTask();
}
