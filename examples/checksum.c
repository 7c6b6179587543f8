/* Checksums, a step at a time. Compiled to LLVM's textual IR with
 *   clang -O1 -fno-jump-tables -S -emit-llvm checksum.c -o checksum.ll
 */

/* A sum of 16 bits whose carry is added again. */
unsigned carried_sum(unsigned sum, unsigned short word) {
    sum = (sum & 0xffffu) + word;
    return (sum & 0xffffu) + (sum >> 16);
}

/* Two sums side by side, each below 255. */
unsigned two_sums(unsigned sums, unsigned char byte) {
    unsigned low = (sums & 0xffu) % 255u, high = ((sums >> 8) & 0xffu) % 255u;
    low = (low + byte) % 255u;
    high = (high + low) % 255u;
    return high << 8 | low;
}

/* One byte into a remainder of 16 bits, a bit at a time. */
unsigned short remainder_step(unsigned short rest, unsigned char byte) {
    unsigned r = rest ^ (unsigned)byte << 8;
    for (unsigned bit = 0; bit < 8u; bit++)
        r = (r & 0x8000u) ? (r << 1) ^ 0x1021u : r << 1;
    return (unsigned short)r;
}

/* A digit that counts twice: the digits of its double are summed. */
unsigned doubled_digit(unsigned digit) {
    if (digit > 9u)
        return 0;
    unsigned twice = digit * 2u;
    return twice / 10u + twice % 10u;
}

/* The digit that makes a sum a multiple of ten. */
unsigned check_digit(unsigned sum) {
    unsigned rest = sum % 10u;
    return (10u - rest) % 10u;
}

/* A weighted sum of a number's three last digits, by eleven. */
unsigned weighted(unsigned number) {
    unsigned a = number % 10u, b = number / 10u % 10u, c = number / 100u % 10u;
    unsigned rest = (a * 2u + b * 3u + c * 4u) % 11u;
    return rest == 0 ? 0 : 11u - rest;
}
