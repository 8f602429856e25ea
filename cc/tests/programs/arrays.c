/* one, two and three dimensions, of each size of element */
#include "os.h"
#include <stdint.h>
#include <stdbool.h>
int8_t line[5]; uint16_t plane[3][6]; int32_t space[2][3][4]; uint8_t same[4][4];
int32_t sum, corner;
TASK(Main) {
  for (int i = 0; i < 5; i++) line[i] = i * 60 - 100;
  for (int i = 0; i < 3; i++) for (int j = 0; j < 6; j++) plane[i][j] = i * 10000 + j * 11;
  for (int i = 0; i < 2; i++) for (int j = 0; j < 3; j++) for (int k = 0; k < 4; k++) space[i][j][k] = (i <<
    20) - (j << 10) + k;
  for (int i = 0; i < 16; i++) same[i >> 2][i & 3] = same[i & 3][i >> 2] + i;
  for (int i = 0; i < 5; i++) sum += line[i] * plane[i % 3][i];
  corner = space[1][2][3] + plane[2][5] + line[4] + (int)sizeof space[1];
  TerminateTask();
}
