/* a sieve, and divisors by trial */
#include "os.h"
#include <stdint.h>
#include <stdbool.h>
uint8_t is_composite[64]; uint16_t primes[18]; uint8_t count; uint32_t common; 
static uint32_t divisor(uint32_t a, uint32_t b) { while (b) { uint32_t t = a % b; a = b; b = t; } return a; }
TASK(Main) {
  for (int i = 2; i < 64; i++) { if (is_composite[i]) continue; primes[count++] = i;
    for (int j = i * i; j < 64; j += i) is_composite[j] = 1; }
  for (int i = 1; i < 9; i++) common += divisor(360 * i, 84 + i);
  TerminateTask();
}
