/* arrays and structures of functions */
#include "os.h"
#include <stdint.h>
#include <stdbool.h>
int r[10];
static int sum(int n) { int t[4] = { 1, n }; int s = 0; t[3] = n * n;
  for (int i = 0; i < 4; i++) s = s * 10 + t[i]; return s; }
static int table(uint8_t k) { const int16_t odd[5] = { 1, 3, 5, 7, 9 }; return odd[k % 5]; }
TASK(Main) {
  struct { int8_t a; uint16_t b[2]; } local = { -5, { 60000 } };
  struct { int x, y; } point = { .y = 4 }, other;
  r[0] = sum(2); r[1] = sum(3) + sum(9); r[2] = table(7) + table(4);
  local.b[1] = local.b[0] + 10000; r[3] = local.a + local.b[0]; r[4] = local.b[1];
  other.x = point.x + 2; other.y = point.y * other.x; r[5] = other.x; r[6] = other.y;
  uint8_t grid[2][3] = { { 1, 2 }, { [2] = r[5] } };
    for (int i = 0; i < 6; i++) r[7] += grid[i / 3][i % 3] << i;
  for (int k = 0; k < 3; k++) { int fresh[2] = { k }; fresh[1] += k; r[8] += fresh[0] + fresh[1]; }
  TerminateTask();
}
