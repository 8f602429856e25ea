/* days of dates, by divisions */
#include "os.h"
#include <stdint.h>
#include <stdbool.h>
int32_t days[6]; uint16_t year[6]; uint8_t month[6], day[6], weekday[6];
static const int32_t numbers[6] = { 0, 59, 60, 11016, 20000, 47540 };
TASK(Main) {
  for (int i = 0; i < 6; i++) {
    int32_t z = numbers[i] + 719468, era = z / 146097, doe = z % 146097,
      yoe = (doe - doe / 1460 + doe / 36524 - doe / 146096) / 365;
    int32_t doy = doe - (365 * yoe + yoe / 4 - yoe / 100), mp = (5 * doy + 2) / 153;
    day[i] = doy - (153 * mp + 2) / 5 + 1; month[i] = mp < 10 ? mp + 3 : mp - 9;
      year[i] = yoe + era * 400 + (month[i] <= 2);
    weekday[i] = (numbers[i] + 4) % 7;
    days[i] = era * 146097 + doe - 719468;
  }
  TerminateTask();
}
