/* Hash functions of numbers, and what is done with their results: mixing, folding, buckets. Compiled to LLVM's textual IR with
 *   clang -O1 -fno-jump-tables -S -emit-llvm hash.c -o hash.ll
 */

unsigned mixed(unsigned x) {
    x ^= x >> 16;
    x *= 0x45d9f3b5u;
    x ^= x >> 15;
    x *= 0x119de1f3u;
    return x ^ (x >> 16);
}

unsigned folded(unsigned long x) { return (unsigned)(x ^ (x >> 32)); }

unsigned char one_byte(unsigned x) {
    x = (x ^ (x >> 16)) & 0xffffu;
    x = (x ^ (x >> 8)) & 0xffu;
    return (unsigned char)x;
}

/* The bucket of two short keys in a table of 61. */
unsigned bucket(unsigned short a, unsigned short b) { return (a * 31u + b) % 61u; }

/* A probe that stays in a table of 256. */
unsigned probe(unsigned key, unsigned turn) {
    unsigned at = (key & 255u) + (turn & 255u);
    return at < 256u ? at : at - 256u;
}

/* A tag of the seven highest bits, marked with an eighth one. */
unsigned tag(unsigned hash) {
    return hash >> 25 | 128u;
}

/* clang writes a rotation as a call of llvm.fshl, which is outside the profile. */
unsigned rotated(unsigned x, unsigned by) { return (x << (by & 31)) | (x >> (-by & 31)); }
