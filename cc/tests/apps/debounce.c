/* Four keys, each sampled every two ticks: a key has changed where three samples agree. Act counts, chains Report, and sets an alarm. */
#include "os.h"
#include <stdint.h>
#include <stdbool.h>

#define KEYS 4

DeclareTask(Sample);
DeclareTask(Act);
DeclareTask(Report);
DeclareAlarm(Hold);

static uint8_t samples[KEYS];
static uint8_t stable;                 /* a bit for each key */
uint8_t changed;
uint16_t presses[KEYS], releases[KEYS], held, reports, chained, wrong;
static uint16_t noise = 0x1D0F;

/* Keys that bounce. */
static uint8_t port(void)
{
  noise = (noise >> 1) ^ (-(noise & 1) & 0xB400u);
  return (noise >> 9 & noise >> 3) | (noise >> 12 & 5);
}

TASK(Sample)
{
  uint8_t now = port(), flips = 0;
  for (uint8_t key = 0; key < KEYS; key++) {
    uint8_t three = (samples[key] << 1 | (now >> key & 1)) & 7;
    bool was_pressed = stable >> key & 1;
    samples[key] = three;
    if ((three == 7 && !was_pressed) || (three == 0 && was_pressed))
      flips |= 1 << key;
  }
  stable ^= flips;
  changed = flips;
  if (flips)
    ActivateTask(Act);
  TerminateTask();
}

TASK(Act)
{
  uint8_t flips = changed;
  for (uint8_t key = 0; key < KEYS; key++)
    if (flips & 1 << key) {
      if (stable >> key & 1) presses[key]++; else releases[key]++;
    }
  if (flips & 1)
    switch (SetRelAlarm(Hold, 3, 0)) {
    case E_OK:
      break;
    case E_OS_STATE:
      CancelAlarm(Hold);
      SetAbsAlarm(Hold, 10, 0);
      break;
    default:
      wrong++;
    }
  if (flips & 2) {
    chained++;
    if (ChainTask(Report) != E_OK)
      wrong++;
  }
  TerminateTask();
}

TASK(Report)
{
  TaskStateType state;
  TickType left;
  GetTaskState(Act, &state);
  if (state == SUSPENDED)
    reports++;
  Schedule();
  if (GetAlarm(Hold, &left) == E_OK)
    held += left;
  TerminateTask();
}
