/* Integer functions for which clang 22 writes calls, and the words `nneg`, `samesign`, `disjoint`, and `nuw` and `nsw` on
   `trunc`. */
int next(int);
unsigned scan(unsigned);
unsigned char step(unsigned char);
void tell(int, unsigned char);
long wide(long, int);
long at(unsigned long);

unsigned packed(unsigned char high, unsigned char low) { return scan((unsigned)high << 8 | low); }

unsigned tagged(unsigned x) { return scan((x & 240u) | 3u); }

unsigned char high_byte(unsigned x) { return step((unsigned char)(x >> 24)); }

unsigned char rounded(int x) { return x > 100 ? step((unsigned char)(x / 128 & 127)) : step(1); }

long element(int i) { return i < 0 ? at(0) : at((unsigned long)i); }

long shifted(unsigned i) { return at((unsigned long)(i >> 1)); }

unsigned halved(unsigned char x) { return scan((unsigned)(x >> 1) + 1u); }

int twice(int x) { return next(next(x)); }

int chosen(int x, int y) { return x > y ? next(x) + y : next(y) - x; }

int ordered(int x, int y) { if (x < 0 || y < 0) return next(-1); return x < y ? next(x) : next(y - x); }

int reported(int x) { tell(x, (unsigned char)x); tell(0, 1); return x; }

unsigned char stepped(unsigned char x) { return step(step(x) & 15); }

long summed(int n) { long s = 0; for (int i = 0; i < n; i++) s += wide(s, i); return s; }

int counted(unsigned x) { int n = 0; while (x) { x &= x - 1; n += next(n); } return n; }

int quotient(int x, int y) { return y > 0 && x >= 0 ? next(x / y) : next(x); }

unsigned hours(unsigned seconds) { return scan(seconds / 3600u % 24u); }

unsigned mixed(unsigned x, unsigned y) { return scan(x << 16 | (y & 65535u)) ^ x; }

int weekday(int day) { switch (day) { case 0: return next(6); case 6: return next(5); default: return day; } }

int digit(char c) { return c >= '0' && c <= '9' ? next(c - '0') : next(c); }

int average(int x, int y) { return x >= 0 && y >= 0 ? next((x + y) / 2) : next(0); }

int below(unsigned char x, unsigned char y) { return x / 2 < y / 2 ? next(x) : next(y); }
