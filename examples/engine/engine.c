/* An engine's controller: each mark of the crank is an arrival, and all other work is timed by a counter of one millisecond. */
#include "os.h"
#include <stdint.h>

DeclareResource(Times);

/* injection times, one for each of sixteen steps of the speed */
static int32_t times[16];
/* a word that one load reads, so it needs no resource */
int32_t speed;
/* how long fuel is injected, when it is lit, and what all times add up to */
int32_t pulse, angle, total;

/* at each mark of the crank */
TASK(Crank)
{
  int32_t now = speed + 1;
  speed = now;
  GetResource(Times);
  int32_t time = times[now >> 2 & 15];
  ReleaseResource(Times);
  pulse = time;
  TerminateTask();
}

/* each 5 ms: more air, more fuel */
TASK(Air)
{
  int32_t now = speed;
  GetResource(Times);
  times[now >> 2 & 15] += 3;
  ReleaseResource(Times);
  TerminateTask();
}

/* each 10 ms: a late spark at low speed */
TASK(Spark)
{
  angle = speed < 20 ? 10 : 4;
  TerminateTask();
}

/* each 100 ms: adds up the times, one by one, so that the crank waits for one at most */
TASK(Adapt)
{
  int32_t sum = 0;
  for (int step = 0; step < 16; step++) {
    GetResource(Times);
    int32_t time = times[step];
    ReleaseResource(Times);
    sum += time;
  }
  total = sum;
  TerminateTask();
}
