/* UTF-8, by the values of bytes. Compiled to LLVM's textual IR with
 *   clang -O1 -fno-jump-tables -S -emit-llvm utf8.c -o utf8.ll
 */

int continues(unsigned char b) { return (b & 0xc0u) == 0x80u; }

/* How many bytes the character of a first byte has; 0 for no first byte. */
unsigned length(unsigned char first) {
    if (first < 0x80u)
        return 1;
    if (first < 0xc2u)
        return 0;
    if (first < 0xe0u)
        return 2;
    if (first < 0xf0u)
        return 3;
    return first < 0xf5u ? 4 : 0;
}

/* How many bytes follow a first byte of the form 1110xxxx: 2, since each of these is the first of three. */
unsigned follow(unsigned char first) {
    if ((first & 0xf0u) != 0xe0u)
        return 0;
    return length(first) - 1u;
}

#define NONE 0xffffffffu

unsigned of_two(unsigned char a, unsigned char b) {
    if (a < 0xc2u || a > 0xdfu || !continues(b))
        return NONE;
    unsigned c = (a & 0x1fu) << 6 | (b & 0x3fu);
    return c < 0x80u || c > 0x7ffu ? NONE : c;
}

unsigned of_three(unsigned char a, unsigned char b, unsigned char c) {
    if ((a & 0xf0u) != 0xe0u || !continues(b) || !continues(c))
        return NONE;
    unsigned x = (a & 0x0fu) << 12 | (b & 0x3fu) << 6 | (c & 0x3fu);
    if (x > 0xffffu)
        return NONE;
    if (x < 0x800u)
        return NONE;
    return x >= 0xd800u && x < 0xe000u ? NONE : x;
}

unsigned of_four(unsigned char a, unsigned char b, unsigned char c, unsigned char d) {
    if (a < 0xf0u || a > 0xf4u || !continues(b) || !continues(c) || !continues(d))
        return NONE;
    unsigned x = (a & 7u) << 18 | (b & 0x3fu) << 12 | (c & 0x3fu) << 6 | (d & 0x3fu);
    return x < 0x10000u || x > 0x10ffffu ? NONE : x;
}

/* The first byte of a character. */
unsigned char first_byte(unsigned c) {
    if (c < 0x80u)
        return (unsigned char)c;
    if (c < 0x800u)
        return (unsigned char)(0xc0u | c >> 6);
    if (c < 0x10000u)
        return (unsigned char)(0xe0u | c >> 12);
    if (c > 0x10ffffu)
        return 0xff;
    return (unsigned char)(0xf0u | c >> 18);
}

unsigned char last_byte(unsigned c) { return c < 0x80u ? (unsigned char)c : (unsigned char)(0x80u | (c & 0x3fu)); }
