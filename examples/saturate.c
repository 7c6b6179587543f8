/* Arithmetic that stops at the ends of its type. Compiled to LLVM's textual IR with
 *   clang -O1 -fno-jump-tables -S -emit-llvm saturate.c -o saturate.ll
 */

unsigned char add_bytes(unsigned char x, unsigned char y) {
    unsigned sum = (unsigned)x + y;
    return sum > 255u ? 255 : (unsigned char)sum;
}

unsigned char less_bytes(unsigned char x, unsigned char y) { return x > y ? x - y : 0; }

/* Of two digits: no sum of them is more than 18, so the stop is never met. */
unsigned char add_digits(unsigned char x, unsigned char y) { return add_bytes(x % 10, y % 10); }

unsigned add(unsigned x, unsigned y) { return x + y < x ? ~0u : x + y; }

int add_signed(int x, int y) {
    int sum;
    if (!__builtin_add_overflow(x, y, &sum))
        return sum;
    return x < 0 ? -2147483647 - 1 : 2147483647;
}

/* Of numbers of 16 bits: the sum fits, so nothing overflows. */
int add_shorts(short x, short y) { return add_signed(x, y); }

short short_sum(short x, short y) {
    int sum = x + y;
    if (sum > 32767)
        return 32767;
    if (sum < -32768)
        return -32768;
    return (short)sum;
}

/* A sum of two shares of a hundred. clang makes one `select` of the tests, and then the sum is done for all numbers. */
int add_percents(int x, int y) {
    if (x < 0 || x > 100 || y < 0 || y > 100)
        return -1;
    return add_signed(x, y);
}

/* The mean of three: behind the tests no sum stops. */
int mean_percent(int x, int y, int z) {
    if (x < 0 || x > 100 || y < 0 || y > 100 || z < 0 || z > 100)
        return -1;
    return add_signed(add_signed(x, y), z) / 3;
}

/* A seventh of what is left of a budget of 500 to 1000 behind a price of at most 100. */
unsigned seventh(unsigned budget, unsigned price) {
    if (budget < 500u || budget > 1000u || price > 100u)
        return 0;
    return (budget > price ? budget - price : 0) / 7u;
}

unsigned product(unsigned x, unsigned y) {
    unsigned whole;
    return __builtin_mul_overflow(x, y, &whole) ? ~0u : whole;
}

/* Of two numbers of 16 bits: the product fits. */
unsigned area(unsigned short width, unsigned short height) { return product(width, height); }
