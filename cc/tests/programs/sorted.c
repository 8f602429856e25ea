/* three ways to sort */
#include "os.h"
#include <stdint.h>
#include <stdbool.h>
static const int16_t first[10] = { 5, -3, 900, 0, -32768, 77, 76, 32767, 5, -1 };
int16_t inserted[10], selected[10], bubbled[10]; uint16_t swaps;
TASK(Main) {
  for (int i = 0; i < 10; i++) inserted[i] = selected[i] = bubbled[i] = first[i];
  for (int i = 1; i < 10; i++) { int16_t v = inserted[i]; int j = i - 1; while (j >= 0 && inserted[j] > v) {
    inserted[j + 1] = inserted[j]; j--; } inserted[j + 1] = v; }
  for (int i = 0; i < 9; i++) { int least = i;
    for (int j = i + 1; j < 10; j++) if (selected[j] < selected[least]) least = j; int16_t t = selected[i];
    selected[i] = selected[least]; selected[least] = t; }
  bool moved; do { moved = false; for (int i = 0; i + 1 < 10; i++) if (bubbled[i] > bubbled[i + 1]) {
    int16_t t = bubbled[i]; bubbled[i] = bubbled[i + 1]; bubbled[i + 1] = t; moved = true; swaps++; } }
    while (moved);
  TerminateTask();
}
