/* a row of cells, each a rule of its neighbours */
#include "os.h"
#include <stdint.h>
#include <stdbool.h>
uint8_t row[32], old[32], rows[8]; uint16_t alive;
TASK(Main) {
  row[16] = 1;
  for (int g = 0; g < 8; g++) {
    for (int i = 0; i < 32; i++) old[i] = row[i];
    for (int i = 0; i < 32; i++) row[i] = 110 >> (old[i - 1 & 31] << 2 | old[i] << 1 | old[i + 1 & 31]) & 1;
    for (int i = 0; i < 32; i++) { rows[g] += row[i]; alive += row[i]; }
  }
  TerminateTask();
}
