/* Small functions on integers, compiled to LLVM's textual IR with
 *   clang -O1 -fno-jump-tables -S -emit-llvm numbers.c -o numbers.ll
 */

unsigned low_byte(unsigned x) {
    return x & 255u;
}

int clamp(int x, int least, int most) {
    if (x < least)
        return least;
    return x > most ? most : x;
}

unsigned count_down(unsigned from) {
    unsigned sum = 0;
    while (from != 0) {
        sum = sum * 3 + from;
        from -= 1;
    }
    return sum;
}

unsigned days(unsigned month) {
    switch (month) {
    case 2:
        return 28;
    case 4:
    case 6:
    case 9:
    case 11:
        return 30;
    default:
        return 31;
    }
}

unsigned first(const unsigned *from) {
    return *from;
}
