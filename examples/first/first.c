#include "os.h"

TASK(Main)
{
  TerminateTask();
}
