/* loops left and gone on with in all ways */
#include "os.h"
#include <stdint.h>
#include <stdbool.h>
int r[12];
static int find(int x) { for (int i = 0; i < 100; i++) { if (i * i == x) return i; if (i * i > x) break; }
  return -1; }
static int loops(int n) { int s = 0; while (1) { if (n-- <= 0) break; if (n & 1) continue; s += n; do { s++;
  if (s & 4) break; } while (s & 3); } return s; }
TASK(Main) {
  r[0] = find(49); r[1] = find(50); r[2] = loops(9);
  for (int i = 0, j = 10; i < j; i++, j -= 2) r[3] += i * j;
  for (;;) { if (r[4]++ > 5) break; }
  for (int i = 10; i; i--) { if (i == 3) continue; r[5] += i; }
  int k = 0; do k += 3; while (k < 20); r[6] = k;
  for (uint8_t i = 250; i >= 250; i++) r[7]++;
  for (int i = 0; i < 3; i++) for (int j = 0; j < 3; j++) { if (j > i) break; for (int m = 0; ; m++) {
    if (m == j) break; r[8] += m + i; } }
  while (r[9] < 7) if (r[9] % 2) r[9] += 3; else r[9]++;
  if (r[0]) if (r[1] > 0) r[10] = 1; else r[10] = 2;
  { int r0 = r[0]; { int r0 = 5; r[11] = r0; } r[11] += r0; }
  TerminateTask();
}
