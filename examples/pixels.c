/* Colours in words: three bytes, or 5, 6 and 5 bits. Compiled to LLVM's textual IR with
 *   clang -O1 -fno-jump-tables -S -emit-llvm pixels.c -o pixels.ll
 */

unsigned packed(unsigned char red, unsigned char green, unsigned char blue) {
    return (unsigned)red << 16 | (unsigned)green << 8 | blue;
}

unsigned short short_of(unsigned colour) {
    return (unsigned short)((colour >> 8 & 0xf800u) | (colour >> 5 & 0x07e0u) | (colour >> 3 & 0x001fu));
}

unsigned colour_of(unsigned short s) {
    unsigned red = s >> 11 & 31u, green = s >> 5 & 63u, blue = s & 31u;
    return (red * 255u / 31u) << 16 | (green * 255u / 63u) << 8 | blue * 255u / 31u;
}

/* How bright a colour is, 0 to 255; the weights sum to 256. */
unsigned brightness(unsigned colour) {
    unsigned sum = (colour >> 16 & 255u) * 77u + (colour >> 8 & 255u) * 150u + (colour & 255u) * 29u;
    unsigned bright = sum >> 8;
    return bright > 255u ? 255u : bright;
}

/* One channel over another, by an opacity from 0 to 255. */
unsigned char over(unsigned char above, unsigned char below, unsigned char opacity) {
    unsigned sum = above * (unsigned)opacity + below * (255u - opacity);
    return (unsigned char)(sum / 255u);
}

unsigned char halfway(unsigned char x, unsigned char y) { return (unsigned char)((x + y) / 2); }

unsigned distance(unsigned char x, unsigned char y) {
    int d = x - y;
    return (unsigned)(d < 0 ? -d : d);
}

unsigned inverted(unsigned colour) { return (colour & 0xffffffu) ^ 0xffffffu; }

/* The place of a pixel in a picture of 640 by 480, or 307200. */
unsigned place(unsigned x, unsigned y) {
    if (x >= 640u || y >= 480u)
        return 307200u;
    return y * 640u + x;
}

unsigned column(unsigned place) { return place < 307200u ? place % 640u : 0; }

unsigned row(unsigned place) { return place < 307200u ? place / 640u : 0; }
