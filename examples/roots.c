/* Loops over numbers: roots, logarithms, divisors. Compiled to LLVM's textual IR with
 *   clang -O1 -fno-jump-tables -S -emit-llvm roots.c -o roots.ll
 */

/* The root of a number of 16 bits, a bit at a time. */
unsigned root(unsigned short x) {
    unsigned r = 0;
    for (unsigned bit = 128u; bit != 0; bit >>= 1) {
        unsigned more = r | bit;
        if (more * more <= x)
            r = more;
    }
    return r;
}

/* The place of the highest one, or 0. */
unsigned highest_place(unsigned x) {
    unsigned place = 0;
    while (x > 1u) {
        x >>= 1;
        place++;
    }
    return place;
}

/* The greatest common divisor of two bytes. */
unsigned common_divisor(unsigned char x, unsigned char y) {
    unsigned a = x, b = y;
    while (b != 0) {
        unsigned rest = a % b;
        a = b;
        b = rest;
    }
    return a;
}

/* How many turns the halving of even numbers and `3 x + 1` of odd ones takes to 1, at most 100. */
int turns(unsigned short from) {
    unsigned long x = from;
    int n = 0;
    while (x > 1u && n < 100) {
        x = x % 2u == 0 ? x / 2u : 3u * x + 1u;
        n++;
    }
    return n;
}

/* A number of at most ten to a power of at most three. */
unsigned power(unsigned base, unsigned exponent) {
    if (base > 10u || exponent > 3u)
        return 0;
    unsigned result = 1;
    for (unsigned turn = 0; turn < exponent; turn++)
        result *= base;
    return result;
}

/* The sum of the digits of a byte. */
unsigned digit_sum(unsigned char x) {
    unsigned sum = 0, left = x;
    do {
        sum += left % 10u;
        left /= 10u;
    } while (left != 0);
    return sum;
}
