/* A meter: samples stand in a table that two tasks share. */
#include "os.h"
#include <stdint.h>

DeclareResource(Table);

/* eight samples, the place of the next one, and their sum */
static int32_t table[8];
static uint32_t place;
int32_t total;

/* adds up the samples while no other task changes them */
TASK(Sum)
{
  int32_t sum = 0;
  GetResource(Table);
  for (int k = 0; k < 8; k++)
    sum += table[k];
  ReleaseResource(Table);
  total = sum;
  TerminateTask();
}

/* counts up from 1, and begins again after eight samples */
TASK(Sample)
{
  GetResource(Table);
  uint32_t now = place;
  table[now & 7] = now + 1;
  place = now < 7 ? now + 1 : 0;
  ReleaseResource(Table);
  TerminateTask();
}
