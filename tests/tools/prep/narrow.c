/* Integers of 64 bits that fit into 32. */
#include <stdint.h>
#include <stdio.h>

typedef struct { uint64_t count; unsigned char block[8]; } state;

static void length(state *s)
{
    for (int i = 0; i < 8; i++)
        s->block[i] = (unsigned char)(s->count >> (8 * i));
}

static uint64_t joined(uint32_t high, uint32_t low)
{
    return (uint64_t)high << 32 | low;
}

int main(void)
{
    state s = { .count = 0x01020304 };
    long long big = 1000000000LL, minus = -5;
    unsigned long long bits = 1ULL << 20;
    s.count += 12u * 8ull;
    length(&s);
    for (int i = 0; i < 8; i++)
        printf("%02x", s.block[i]);
    printf("\n%lld %llu %lld %llx\n", big * 2, bits, minus >> 40, joined(0, 77));
    bits >>= 33;
    minus >>= 35;
    printf("%d %d %u\n", (int)bits, (int)minus, (unsigned)(s.count >> 56));
    return 0;
}
