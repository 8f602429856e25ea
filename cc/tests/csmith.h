/* What programs of csmith call: sums of all types, defined for all values. Those of the tests find this in the place of csmith's own header. */
#ifndef CSMITH_H
#define CSMITH_H
#include "os.h"
#include <stdint.h>
#define SUM(t, s, name, op) static t safe_##name##_func_##t##s(t a, t b) { return (t)(a op b); }
#define QUOTIENT(t, s, name, op, edge) static t safe_##name##_func_##t##s(t a, t b) { return b == 0 || (edge) ? a : (t)(a op b); }
#define SHIFT(t, s, name, op, kind, wrong) static t safe_##name##_func_##t##s(t a, kind b) { return (wrong) ? a : (t)(a op b); }
#define ALL(t, s, edge) \
    static t safe_unary_minus_func_##t##s(t a) { return (t)-a; } \
    SUM(t, s##s, add, +) SUM(t, s##s, sub, -) SUM(t, s##s, mul, *) QUOTIENT(t, s##s, div, /, edge) QUOTIENT(t, s##s, mod, %, edge) \
    SHIFT(t, s##_s, lshift, <<, int, b < 0 || b >= 32) SHIFT(t, s##_u, lshift, <<, unsigned int, b >= 32u) \
    SHIFT(t, s##_s, rshift, >>, int, b < 0 || b >= 32) SHIFT(t, s##_u, rshift, >>, unsigned int, b >= 32u)
ALL(int8_t, _s, a == INT8_MIN && b == -1)
ALL(int16_t, _s, a == INT16_MIN && b == -1)
ALL(int32_t, _s, a == INT32_MIN && b == -1)
ALL(uint8_t, _u, 0)
ALL(uint16_t, _u, 0)
ALL(uint32_t, _u, 0)
#endif
