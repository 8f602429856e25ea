/* macros, conditions of the preprocessor, typedefs and prototypes */
#include "os.h"
#include <stdint.h>
#include <stdbool.h>
#define SIZE 6
#define SQUARE(x) ((x) * (x))
#define JOINED(a, b) a##b
#if SIZE > 4 && defined(SIZE)
typedef int16_t sample_t;
#else
typedef int8_t sample_t;
#endif
typedef struct { sample_t low, high; } range_t; typedef sample_t row_t[SIZE];
range_t range = { 100, -100 }; row_t JOINED(ro, w); unsigned int sum; signed short extra;
  unsigned char tiny; long plain;
static inline sample_t clipped(sample_t v);
TASK(Main) {
  for (int i = 0; i < SIZE; i++) { row[i] = SQUARE(i - 2) * 9 - 30; if (row[i] < range.low) range.low = row[i];
    if (row[i] > range.high) range.high = row[i]; sum += clipped(row[i]); }
  extra = sizeof(row_t) + sizeof(sample_t); tiny = extra * 20; plain = -(long)tiny;
  TerminateTask();
}
static inline sample_t clipped(sample_t v) { return v > 50 ? 50 : v; }
