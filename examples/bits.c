/* Tricks with the bits of a number. Compiled to LLVM's textual IR with
 *   clang -O1 -fno-jump-tables -S -emit-llvm bits.c -o bits.ll
 */

unsigned lowest_bit(unsigned x) { return x & -x; }

unsigned without_lowest_bit(unsigned x) { return x & (x - 1u); }

int is_power_of_two(unsigned x) { return x != 0 && (x & (x - 1u)) == 0; }

/* How many of the low four bits are set: pairs are summed side by side. */
unsigned ones_of_nibble(unsigned x) {
    unsigned pairs = (x & 5u) + ((x >> 1) & 5u);
    return (pairs & 3u) + ((pairs >> 2) & 3u);
}

/* How many bits of a byte are set. */
unsigned ones_of_byte(unsigned char x) {
    unsigned pairs = (x & 0x55u) + ((x >> 1) & 0x55u);
    unsigned fours = (pairs & 0x33u) + ((pairs >> 2) & 0x33u);
    return (fours & 0x0fu) + (fours >> 4);
}

unsigned parity(unsigned x) {
    x ^= x >> 16;
    x ^= x >> 8;
    x ^= x >> 4;
    x ^= x >> 2;
    x ^= x >> 1;
    return x & 1u;
}

unsigned char swapped_nibbles(unsigned char x) { return (unsigned char)((x << 4) | (x >> 4)); }

/* The bits of two bytes, one from each in turn. */
unsigned spread(unsigned char x) {
    unsigned w = x;
    w = (w | (w << 4)) & 0x0f0fu;
    w = (w | (w << 2)) & 0x3333u;
    return (w | (w << 1)) & 0x5555u;
}

unsigned interleaved(unsigned char x, unsigned char y) { return spread(x) + spread(y) * 2u; }

unsigned places_of_byte(unsigned char x) { return x == 0 ? 0u : 32u - (unsigned)__builtin_clz(x); }

/* A number of the form 4 n + 1 is odd, so the first quotient is never taken. */
unsigned odd_part(unsigned x) {
    if ((x & 3u) != 1u)
        return 0;
    if ((x & 1u) == 0)
        return x / 6u;
    return x / 12u;
}
