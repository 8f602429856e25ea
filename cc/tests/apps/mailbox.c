/* Letters in a box of eight: Post puts them in, by arrivals and by an alarm, Reader waits for them, Clerk answers heavy ones. */
#include "os.h"
#include <stdint.h>
#include <stdbool.h>

DeclareTask(Post);
DeclareTask(Reader);
DeclareTask(Clerk);
DeclareEvent(Mail);
DeclareEvent(Late);
DeclareResource(Box);
DeclareAlarm(Timeout);

struct letter { uint8_t kind; uint16_t weight; };
static struct letter box[8];
static uint8_t first, last;
uint16_t lost, kinds[4], late, answered, refused, waiting;
uint32_t weight;
static uint32_t chance = 7;

static uint32_t random_number(void)
{
  chance = chance * 1664525u + 1013904223u;
  return chance >> 12;
}

static bool put(uint8_t kind, uint16_t heavy)
{
  bool is_room;
  GetResource(Box);
  is_room = (uint8_t)(last - first) < 8;
  if (is_room) {
    box[last & 7].kind = kind;
    box[last & 7].weight = heavy;
    last++;
  }
  ReleaseResource(Box);
  return is_room;
}

TASK(Post)
{
  uint8_t count = random_number() & 7;
  LOOP_BOUND(7)
  while (count--)
    if (!put(count & 3, random_number() & 1023))
      lost++;
  SetEvent(Reader, Mail);
  TerminateTask();
}

/* Empties the box. */
static void read_all(void)
{
  for (;;) {
    GetResource(Box);
    if (first == last)
      break;
    uint8_t kind = box[first & 7].kind;
    uint16_t heavy = box[first & 7].weight;
    first++;
    ReleaseResource(Box);
    kinds[kind]++;
    if (heavy > 1000)
      late++;
    else
      weight += heavy;
    if (heavy > 800 && ActivateTask(Clerk) == E_OS_LIMIT)
      refused++;
  }
  ReleaseResource(Box);
}

TASK(Reader)
{
  SetRelAlarm(Timeout, 7, 0);
  for (;;) {
    EventMaskType events;
    WaitEvent(Mail | Late);
    GetEvent(Reader, &events);
    if (events & Late) {
      late++;
      ClearEvent(Late);
      if (SetRelAlarm(Timeout, 5, 0) != E_OK)
        refused++;
    }
    if (events & Mail) {
      TickType left = 0;
      ClearEvent(Mail);
      if (GetAlarm(Timeout, &left) == E_OK)
        weight += left;
      CancelAlarm(Timeout);
      read_all();
      SetRelAlarm(Timeout, 9, 0);
    }
  }
}

TASK(Clerk)
{
  TaskStateType state;
  TaskType me;
  GetTaskState(Reader, &state);
  waiting += state == WAITING;
  GetTaskID(&me);
  if (me == Clerk && state != RUNNING)
    answered++;
  TerminateTask();
}
