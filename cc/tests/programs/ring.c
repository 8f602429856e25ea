/* a ring of messages with losses */
#include "os.h"
#include <stdint.h>
#include <stdbool.h>
struct message { uint8_t kind; uint16_t data; }; static struct message ring[8]; uint8_t put_at, got_at, lost;
  uint32_t got; uint16_t kinds[4];
static bool put(uint8_t kind, uint16_t data) { if ((uint8_t)(put_at - got_at) == 8) { lost++; return false; }
  ring[put_at & 7].kind = kind; ring[put_at & 7].data = data; put_at++; return true; }
static bool get(void) { if (put_at == got_at) return false; uint8_t k = got_at++ & 7;
  got = got * 33 + ring[k].data; kinds[ring[k].kind & 3]++; return true; }
TASK(Main) {
  for (int i = 0; i < 40; i++) { put(i, i * 997); put(i * 3, 65535 - i); if (i % 3) get();
    if (i % 5 == 0) while (get()) ; }
  TerminateTask();
}
