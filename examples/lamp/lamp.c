/* A lamp that blinks, and a button that counts. */
#include "os.h"
#include <stdint.h>

DeclareResource(Count);

/* how often the button was pressed */
volatile int32_t presses;

static int32_t show(void)
{
  GetResource(Count);
  int32_t shown = presses;
  ReleaseResource(Count);
  return shown;
}

TASK(Lamp)
{
  for (int blink = 0; blink < 2; blink++)
    show();
  TerminateTask();
}

TASK(Button)
{
  GetResource(Count);
  presses++;
  ReleaseResource(Count);
  TerminateTask();
}
