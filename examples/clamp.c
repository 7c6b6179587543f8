/* Numbers that are kept within bounds. Compiled to LLVM's textual IR with
 *   clang -O1 -fno-jump-tables -S -emit-llvm clamp.c -o clamp.ll
 */

int percent(int x) { return x < 0 ? 0 : x > 100 ? 100 : x; }

/* A share of 255, by percent: all is at least 0 and below 65536. */
int share(int x) { return percent(x) * 255 / 100; }

unsigned char to_byte(int x) {
    if (x < 0)
        return 0;
    if (x > 255)
        return 255;
    return (unsigned char)x;
}

/* A byte is kept within bounds that it has. */
unsigned char byte_again(unsigned char x) { return to_byte(x); }

/* An angle from 0 to 359. */
int angle(int degrees) {
    int rest = degrees % 360;
    return rest < 0 ? rest + 360 : rest;
}

/* The quarter of the circle that an angle is in, 0 to 3. */
int quarter(int degrees) { return angle(degrees) / 90; }

/* A step towards a goal, of at most ten. */
int towards(int at, int goal) {
    int left = goal - at;
    if (left > 10)
        left = 10;
    if (left < -10)
        left = -10;
    return at + left;
}

/* A number that is assumed to be within bounds. */
int scaled(int x) {
    __builtin_assume(x >= 0);
    __builtin_assume(x < 1000);
    return x * 64 / 1000;
}

/* A mark from 1 to 6 for points from 0 to 100. */
int mark(int points) {
    if (points < 0 || points > 100)
        return 0;
    if (points < 50)
        return 6;
    switch (points / 10) {
    case 5:
        return 4;
    case 6:
    case 7:
        return 3;
    case 8:
        return 2;
    default:
        return 1;
    }
}
