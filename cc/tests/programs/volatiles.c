/* reads and writes stay as many as the text has */
#include "os.h"
#include <stdint.h>
#include <stdbool.h>
volatile int port, seen; volatile uint8_t flags[2]; int total, plain = 3;
TASK(Main) {
  port = 1; port; port = port + 1; port += port; seen = port++; (void)seen; flags[0] = 255; flags[0]++;
    flags[1] = flags[0] | 4;
  plain = plain; plain += plain; total = port * 100 + seen * 10 + flags[1] + plain; if (port) ;
    for (; seen > 0; seen--) total++;
  TerminateTask();
}
