/* A pump that is switched each two seconds by a cyclic alarm, and a task that waits half a second for the water. */
#include "os.h"
#include <stdint.h>

DeclareEvent(Settled);
DeclareAlarm(Settle);

/* whether the pump runs, and how often the level was read */
int32_t running, readings;

/* switches the pump, and asks for a reading two ticks later */
TASK(Pump)
{
  running ^= 1;
  SetRelAlarm(Settle, 2, 0);
  TerminateTask();
}

TASK(Level)
{
  for (;;) {
    WaitEvent(Settled);
    ClearEvent(Settled);
    readings++;
  }
}
