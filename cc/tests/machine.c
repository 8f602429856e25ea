/* Counts the instructions that an image of RV32I executes from 0x80000000 to its ecall: `ratio` measures gcc's code with it. */
#include <stdint.h>
#include <stdio.h>
#include <string.h>

static uint8_t memory[1 << 21];
static uint32_t x[32], pc = 0x80000000u;

static uint32_t field(uint32_t w, int high, int low) { return w << (31 - high) >> (31 - high + low); }
static uint8_t *byte(uint32_t address) { return memory + (address & (sizeof memory - 1)); }

static uint32_t sum(uint32_t w, uint32_t a, uint32_t b)
{
  int other = w >> 30 & 1, is_register = w >> 5 & 1;
  switch (field(w, 14, 12)) {
  case 0: return is_register && other ? a - b : a + b;
  case 1: return a << (b & 31);
  case 2: return (int32_t)a < (int32_t)b;
  case 3: return a < b;
  case 4: return a ^ b;
  case 5: return other ? (uint32_t)((int32_t)a >> (b & 31)) : a >> (b & 31);
  case 6: return a | b;
  default: return a & b;
  }
}

static uint32_t load(uint32_t w, uint32_t address)
{
  uint32_t v = 0;
  int kind = field(w, 13, 12), bits = 32 - (8 << kind);
  memcpy(&v, byte(address), 1 << kind);
  return w >> 14 & 1 || kind == 2 ? v : (uint32_t)((int32_t)(v << bits) >> bits);
}

static int holds(uint32_t w, uint32_t a, uint32_t b)
{
  int kind = field(w, 14, 13), is = kind == 0 ? a == b : kind == 2 ? (int32_t)a < (int32_t)b : a < b;
  return is ^ (w >> 12 & 1);
}

static int step(void)
{
  uint32_t w, next = pc + 4, result = 0;
  memcpy(&w, byte(pc), 4);
  uint32_t to = field(w, 11, 7), a = x[field(w, 19, 15)], b = x[field(w, 24, 20)], upper = w & 0xfffff000u;
  int32_t low = (int32_t)w >> 20, sign = (int32_t)w >> 31, store = (low & ~31) | (int32_t)to;
  switch (w & 127) {
  case 0x37: result = upper; break;
  case 0x17: result = pc + upper; break;
  case 0x6f: result = next; next = pc + ((uint32_t)sign << 20 | (w & 0xff000) | (w >> 9 & 0x800) | (w >> 20 & 0x7fe)); break;
  case 0x67: result = next; next = (a + low) & ~1u; break;
  case 0x63:
    if (holds(w, a, b)) next = pc + ((uint32_t)sign << 12 | (w << 4 & 0x800) | (w >> 20 & 0x7e0) | (w >> 7 & 0x1e));
    to = 0;
    break;
  case 0x03: result = load(w, a + low); break;
  case 0x23: memcpy(byte(a + store), &b, 1 << field(w, 13, 12)); to = 0; break;
  case 0x13: result = sum(w, a, low); break;
  case 0x33: result = sum(w, a, b); break;
  default: return 0;
  }
  if (to) x[to] = result;
  pc = next;
  return 1;
}

int main(int count, char **words)
{
  FILE *file = count == 2 ? fopen(words[1], "rb") : 0;
  if (!file || !fread(memory, 1, sizeof memory, file)) return 1;
  unsigned long executed = 1;
  while (executed < 100000000 && step()) executed++;
  printf("%lu\n", executed);
  return 0;
}
