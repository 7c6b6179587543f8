/* Digits of texts, given as the characters themselves. Compiled to LLVM's textual IR with
 *   clang -O1 -fno-jump-tables -S -emit-llvm digits.c -o digits.ll
 */

/* The number that a decimal digit stands for, or -1. */
int decimal(unsigned char c) {
    if (c < '0' || c > '9')
        return -1;
    return c - '0';
}

/* The number that a hexadecimal digit stands for, or -1. */
int hexadecimal(unsigned char c) {
    if (c >= '0' && c <= '9')
        return c - '0';
    if (c >= 'a' && c <= 'f')
        return c - 'a' + 10;
    if (c >= 'A' && c <= 'F')
        return c - 'A' + 10;
    return -1;
}

/* Two decimal digits; 100 where one of them is none. */
int two_digits(unsigned char high, unsigned char low) {
    int h = decimal(high), l = decimal(low);
    if (h < 0 || l < 0)
        return 100;
    int number = h * 10 + l;
    return number > 99 ? -1 : number;
}

/* A number with one more digit, or the greatest one where it would be too large. */
unsigned with_digit(unsigned number, unsigned char c) {
    unsigned digit = (unsigned)c - '0';
    if (digit > 9u)
        return number;
    if (number > 429496728u)
        return ~0u;
    return number * 10u + digit;
}

/* The character of the last decimal digit. */
unsigned char last_digit(unsigned number) { return (unsigned char)('0' + number % 10u); }

unsigned char hexadecimal_digit(unsigned number) {
    unsigned nibble = number & 15u;
    return (unsigned char)(nibble < 10u ? '0' + nibble : 'a' + nibble - 10u);
}

/* How many decimal digits a number of 16 bits has. */
unsigned decimal_places(unsigned short number) {
    unsigned places = 1, left = number;
    while (left >= 10u) {
        left /= 10u;
        places++;
    }
    return places;
}

unsigned char upper(unsigned char c) { return c >= 'a' && c <= 'z' ? c - 32 : c; }
