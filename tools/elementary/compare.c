/* Holds port_sqrt and port_hypot to outside answers: the records that `exact.py records` makes, and, for the square root, the machine's own at COUNT numbers.
 *     compare RECORDS COUNT
 * Any NaN equals any NaN. */
#include <inttypes.h>
#include <math.h>
#include <stdio.h>
#include <stdlib.h>
#include <string.h>

double port_sqrt(double x);
double port_hypot(double x, double y);

static double of(uint64_t b) { double x; memcpy(&x, &b, 8); return x; }
static uint64_t bits(double x) { uint64_t b; memcpy(&b, &x, 8); return x != x ? 0x7ff8000000000000 : b; }
static uint64_t word(const unsigned char *p) { uint64_t n = 0; for (int i = 0; i < 8; i++) n = n << 8 | p[i]; return n; }

static uint64_t state = 88172645463325252;
static uint64_t next(void) { state ^= state << 13; state ^= state >> 7; state ^= state << 17; return state; }

/* every kind of argument of a square root: any, positive, subnormal, a square and its neighbours, a power of two and its neighbours */
static uint64_t argument(long i) {
    switch (i % 6) {
    case 0: return next();
    case 1: return next() >> 1;
    case 2: return next() >> (12 + next() % 52);
    case 3: { double q = (double)(next() >> 37); return bits(q * q) + next() % 3 - 1; }
    case 4: { double q = of((next() % 2046 << 52) | (next() >> 12 & ~(uint64_t)0x3ffffff)); return bits(q * q) + next() % 3 - 1; }
    default: return (next() % 2048 << 52) + next() % 5 - 2;
    }
}

static long differ = 0;
static void hold(const char *name, uint64_t x, uint64_t y, uint64_t want, uint64_t have) {
    if (want == have) return;
    if (differ++ < 10) printf("%s %016" PRIx64 " %016" PRIx64 ": %016" PRIx64 ", not %016" PRIx64 "\n", name, x, y, have, want);
}

int main(int count, char **words) {
    FILE *file = fopen(words[1], "rb");
    unsigned char r[24];
    long roots = 0, lengths = 0, machine = atol(words[2]);
    if (!file || count < 3) return 2;
    while (fread(r, 24, 1, file) == 1) {
        uint64_t x = word(r), y = word(r + 8), z = word(r + 16);
        if (y == ~(uint64_t)0) { hold("sqrt", x, 0, z, bits(port_sqrt(of(x)))); roots++; }
        else { hold("hypot", x, y, z, bits(port_hypot(of(x), of(y)))); hold("hypot", y, x, z, bits(port_hypot(of(y), of(x)))); lengths++; }
    }
    for (long i = 0; i < machine; i++) {
        uint64_t x = argument(i);
        volatile double v = of(x);
        hold("sqrt", x, 0, bits(sqrt(v)), bits(port_sqrt(of(x))));
    }
    printf("sqrt: %ld exact answers, %ld of the machine; hypot: %ld exact answers, both ways round; %ld different\n", roots, machine, lengths, differ);
    return differ != 0;
}
