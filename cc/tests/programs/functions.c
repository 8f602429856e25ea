/* functions called once and often, with and without results, before their bodies */
#include "os.h"
#include <stdint.h>
#include <stdbool.h>
static int later(int a, int b);
int r[8], calls; static int hidden = 3;
static void count(void) { calls++; }
static int twice(int x) { count(); return x + x; }
static int four(int x) { return twice(twice(x)); }
static int pick(bool c, int a, int b) { if (c) return a; return b; }
static int same(int x) { static int last = -1; int was = last; for (int i = 0; i < 1; i++) last = x;
  return was; }
TASK(Main) {
  r[0] = later(3, 4); r[1] = four(5); r[2] = four(four(1)); r[3] = pick(r[1] > 10, twice(7), later(1, 2));
    r[4] = same(10) + same(20) * 100; r[5] = same(30);
  count(); r[6] = calls; hidden += pick(0, 1, pick(1, 2, 3)); r[7] = hidden;
  TerminateTask();
}
static int later(int a, int b) { int s = 0; while (b--) s += a; return s; }
