/* structures in structures, arrays of them, and designators */
#include "os.h"
#include <stdint.h>
#include <stdbool.h>
struct point { int16_t x; uint8_t y; }; struct part { int32_t id; struct point at, to; uint8_t tags[3]; };
struct part one = { 6, { -3, 200 }, { 4, 5 }, { 1, 2, 3 } }, many[4] = { { 1, { 2, 3 }, { .y = 9 }, { 4 } }, {
  .id = 8, .tags = { [1] = 7 } } }; static struct point path[3][2] = { { { 1, 2 } }, [2] = { { 5, 6 }, { 7, 8 }
  } };
int32_t sum; uint16_t lengths[2];
TASK(Main) {
  struct point here = { 10, 20 };
  for (int i = 0; i < 4; i++) { many[i].id += i * one.id; many[i].at.x = here.x - i; many[i].to.y = here.y * i;
    many[i].tags[i % 3] = one.tags[i & 1] + 1; here.x += many[i].at.y; }
  for (int i = 0; i < 3; i++) for (int j = 0; j < 2; j++) { path[i][j].x += i - j;
    sum += path[i][j].x * path[i][j].y; }
  one.at.x--; ++one.to.y; one.tags[2] <<= 3; lengths[0] = sizeof many[0].tags;
    lengths[1] = sizeof path[0][0].x; sum += here.x;
  TerminateTask();
}
