/* rounds of a block cipher, there and back */
#include "os.h"
#include <stdint.h>
#include <stdbool.h>
static const uint32_t key[4] = { 0x01234567U, 0x89abcdefU, 0xfedcba98U, 0x76543210U }; uint32_t block[2] = {
  0x41424344U, 0x45464748U }, secret[2], again[2];
TASK(Main) {
  uint32_t a = block[0], b = block[1], sum = 0;
  for (int i = 0; i < 12; i++) { a += ((b << 4 ^ b >> 5) + b) ^ (sum + key[sum & 3]); sum += 0x9E3779B9u;
    b += ((a << 4 ^ a >> 5) + a) ^ (sum + key[sum >> 11 & 3]); }
  secret[0] = a; secret[1] = b;
  for (int i = 0; i < 12; i++) { b -= ((a << 4 ^ a >> 5) + a) ^ (sum + key[sum >> 11 & 3]); sum -= 0x9E3779B9u;
    a -= ((b << 4 ^ b >> 5) + b) ^ (sum + key[sum & 3]); }
  again[0] = a; again[1] = b;
  TerminateTask();
}
