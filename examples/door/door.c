/* A door's controller: each time that the sensor sees the door move, the lamp is switched. */
#include "os.h"
#include <stdint.h>

DeclareTask(Door);
DeclareEvent(Moved);
DeclareResource(Lamp);

/* whether the lamp is lit */
volatile int32_t lit;

TASK(Door)
{
  for (;;) {
    WaitEvent(Moved);
    ClearEvent(Moved);
    GetResource(Lamp);
    lit ^= 1;
    ReleaseResource(Lamp);
  }
}

/* sets the event while it holds the lamp, so Door goes on only as the lamp is released */
TASK(Sensor)
{
  GetResource(Lamp);
  SetEvent(Door, Moved);
  (void)lit;
  ReleaseResource(Lamp);
  TerminateTask();
}
