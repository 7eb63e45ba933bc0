/* Prints what the C compiler's own operators and conversions give on 32 bits, a line for each: the operator, the type, the
   operands and the result; or `Convert`, the type, a number and the result. All numbers are in hexadecimal digits. In place of a
   result stands the rule that an undefined operation breaks (U7: out of range, U8: division by zero, U9: shift count).
   Build: gcc -fwrapv arith.c */
#include <stdint.h>
#include <stdio.h>

static const uint32_t pairs[][2] = {
    {1, 31}, {1, 32}, {0xffffffff, 0xffffffff}, {0x80000000, 0xffffffff}, {0x7fffffff, 1}, {0x80000000, 1},
    {0, 0x80000000}, {0x80000000, 31}, {7, 0xfffffffe}, {0xfffffff9, 2}, {0, 0}, {5, 0}};
enum { PAIRS = sizeof pairs / sizeof pairs[0] };

static const char *const ops[] = {"Add", "Sub", "Mul", "Div", "Rem", "Shl", "Shr", "And", "Or", "Xor", "Lt",
                                  "Gt", "Le", "Ge", "Eq", "Ne", "Neg", "Not", "Truth", "Inc", "Dec"};
enum { OPS = sizeof ops / sizeof ops[0], U7 = 7, U8 = 8, U9 = 9 };
static const uint64_t rule = UINT64_C(1) << 32;

static uint64_t checked(int overflow, int32_t r) { return overflow ? rule + U7 : (uint32_t)r; }

static uint64_t on_int(int op, int32_t a, int32_t b) {
    int32_t r = 0;
    switch (op) {
    case 0: { int o = __builtin_add_overflow(a, b, &r); return checked(o, r); }
    case 1: { int o = __builtin_sub_overflow(a, b, &r); return checked(o, r); }
    case 2: { int o = __builtin_mul_overflow(a, b, &r); return checked(o, r); }
    case 3: return b == 0 ? rule + U8 : a == INT32_MIN && b == -1 ? rule + U7 : (uint32_t)(a / b);
    case 4: return b == 0 ? rule + U8 : a == INT32_MIN && b == -1 ? rule + U7 : (uint32_t)(a % b);
    case 5: return b < 0 || b > 31 ? rule + U9 : (uint32_t)(a << b);
    case 6: return b < 0 || b > 31 ? rule + U9 : (uint32_t)(a >> b);
    case 7: return (uint32_t)(a & b);
    case 8: return (uint32_t)(a | b);
    case 9: return (uint32_t)(a ^ b);
    case 10: return a < b;
    case 11: return a > b;
    case 12: return a <= b;
    case 13: return a >= b;
    case 14: return a == b;
    case 15: return a != b;
    case 16: { int o = __builtin_sub_overflow(0, b, &r); return checked(o, r); }
    case 17: return (uint32_t)~b;
    case 18: return a ? 1 : 0;
    case 19: { int o = __builtin_add_overflow(a, 1, &r); return checked(o, r); }
    default: { int o = __builtin_sub_overflow(a, 1, &r); return checked(o, r); }
    }
}

static uint64_t on_unsigned(int op, uint32_t a, uint32_t b) {
    switch (op) {
    case 0: return (uint32_t)(a + b);
    case 1: return (uint32_t)(a - b);
    case 2: return (uint32_t)(a * b);
    case 3: return b == 0 ? rule + U8 : a / b;
    case 4: return b == 0 ? rule + U8 : a % b;
    case 5: return b > 31 ? rule + U9 : (uint32_t)(a << b);
    case 6: return b > 31 ? rule + U9 : a >> b;
    case 7: return a & b;
    case 8: return a | b;
    case 9: return a ^ b;
    case 10: return a < b;
    case 11: return a > b;
    case 12: return a <= b;
    case 13: return a >= b;
    case 14: return a == b;
    case 15: return a != b;
    case 16: return (uint32_t)-b;
    case 17: return (uint32_t)~b;
    case 18: return a ? 1 : 0;
    case 19: return (uint32_t)(a + 1);
    default: return (uint32_t)(a - 1);
    }
}

static void row(const char *op, const char *type, int o, int is_int) {
    for (int k = 0; k < PAIRS; k++) {
        uint64_t r = is_int ? on_int(o, (int32_t)pairs[k][0], (int32_t)pairs[k][1]) : on_unsigned(o, pairs[k][0], pairs[k][1]);
        printf("%s %s %x %x ", op, type, pairs[k][0], pairs[k][1]);
        printf(r < rule ? "%x\n" : "U%d\n", (unsigned)(r < rule ? r : r - rule));
    }
}

int main(void) {
    static const uint32_t values[] = {0, 1, 0x7f, 0x80, 0xff, 0x7fff, 0x8000, 0x12345680, 0x7fffffff, 0x80000000, 0xffffffff};
    enum { VALUES = sizeof values / sizeof values[0] };
    for (int o = 0; o < OPS; o++) {
        row(ops[o], o % 2 ? "int" : "long", o, 1);
        row(ops[o], o % 2 ? "unsigned long" : "unsigned int", o, 0);
    }
#define CONVERT(name, type) \
    for (int k = 0; k < VALUES; k++) printf("Convert %s %x %x\n", name, values[k], (uint32_t)(type)values[k]);
    CONVERT("char", unsigned char) CONVERT("signed char", signed char) CONVERT("unsigned char", unsigned char)
    CONVERT("short", short) CONVERT("unsigned short", unsigned short) CONVERT("int", int32_t)
    CONVERT("unsigned int", uint32_t) CONVERT("long", int32_t) CONVERT("unsigned long", uint32_t)
    return 0;
}
