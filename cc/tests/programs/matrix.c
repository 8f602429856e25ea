/* products of matrices, a transpose and a trace */
#include "os.h"
#include <stdint.h>
#include <stdbool.h>
int32_t a[3][4], b[4][3], c[3][3], t[4][3], trace;
TASK(Main) {
  for (int i = 0; i < 3; i++) for (int j = 0; j < 4; j++) { a[i][j] = i * 5 - j; b[j][i] = i + j * 3;
    t[j][i] = a[i][j]; }
  for (int i = 0; i < 3; i++) for (int j = 0; j < 3; j++) for (int k = 0; k < 4; k++) c[i][j] += a[i][k] *
    b[k][j];
  for (int i = 0; i < 3; i++) trace += c[i][i] * t[i][i];
  TerminateTask();
}
