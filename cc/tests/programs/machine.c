/* a machine of states over a row of inputs */
#include "os.h"
#include <stdint.h>
#include <stdbool.h>
enum { IDLE, OPENING, OPEN, CLOSING, FAULT };
static const uint8_t inputs[16] = { 0, 1, 1, 2, 0, 3, 3, 4, 1, 9, 0, 1, 2, 3, 5, 0 };
uint8_t state, trace[16]; uint16_t faults, opened;
TASK(Main) {
  for (int i = 0; i < 16; i++) {
    uint8_t in = inputs[i];
    switch (state) {
    case IDLE: if (in == 1) state = OPENING; break;
    case OPENING: if (in == 2) { state = OPEN; opened++; } else if (in > 5) state = FAULT; break;
    case OPEN: if (in == 3) state = CLOSING;
      break;
    case CLOSING: switch (in) { case 4: state = IDLE; break; case 1: state = OPENING; break;
      default: state = in > 8 ? FAULT : CLOSING; } break;
    case FAULT: faults++; if (!in) state = IDLE;
    }
    trace[i] = state << 4 | in;
  }
  TerminateTask();
}
