/* bench/floor/cell.c beside the port, which is the judge.
 *     floor CELLS           that many random cells: every field of the answer, bit for bit
 *     floor SIDE all|one    one call, to count instructions: SIDE is port, own (each face by itself), shared, or hypot (five of them alone);
 *                           all has 64 faces, one has 1 face, both five quotes: the cells of bench/fit/main.rs */
#include "kesupayro.h"

#include <math.h>
#include <stdio.h>
#include <stdlib.h>
#include <string.h>

typedef PortLimits Limits;
typedef PortCell Cell;
typedef Cell Answer(const double *k, size_t ks, const double *w, size_t ws, const double *t, size_t ts, Limits l, double m, double sigma);
typedef struct { double k[256], w[256], t[256], m, sigma; size_t count; Limits limits; } Question;

Answer own_cell, shared_cell;

#define MEASURED(name, answer) __attribute__((noinline)) Cell name(const Question *q) { return answer(q->k, q->count, q->w, q->count, q->t, q->count, q->limits, q->m, q->sigma); }
MEASURED(measured_port, port_cell)
MEASURED(measured_own, own_cell)
MEASURED(measured_shared, shared_cell)

__attribute__((noinline)) Cell measured_hypot(const Question *q) {
    Cell c = { .faces = 0 };
    for (size_t i = 0; i < q->count; i++) c.x[0] += port_hypot((q->k[i] - q->m) / q->sigma, 1.0);
    return c;
}

/* ---- the cells of bench/fit/main.rs */

static double noise(size_t i) {
    uint64_t z = (i + 1) * 0x9E3779B97F4A7C15u;
    z = (z ^ (z >> 30)) * 0xBF58476D1CE4E5B9u;
    z = (z ^ (z >> 27)) * 0x94D049BB133111EBu;
    return (double)((z ^ (z >> 31)) >> 11) / (double)(1ull << 53);
}

/* "noisy" quotes for one face, "constrained" ones for all. */
static Question quotes(bool one, size_t count) {
    Question q = { .m = 0.02, .sigma = 0.15, .count = count, .limits = { 1e-8, 1e-8, 1e-12, 1e-12 } };
    for (size_t i = 0; i < count; i++) {
        double k = (double)i / (double)(count - 1) - 0.5, x = k - 0.02, smile = 0.01 + 0.1 * (-0.4 * x + sqrt(x * x + 0.0225));
        q.k[i] = k;
        q.w[i] = one ? smile * (0.99 + 0.02 * noise(i)) : 0.04 - 0.02 * k - 0.01 * k * k + 0.0004 * noise(i);
        q.t[i] = (1.0 + noise(i + 1000)) / 2.0;
        q.limits.a_max = fmax(q.limits.a_max, q.w[i]);
    }
    return q;
}

/* ---- random cells */

static uint64_t state = 88172645463325252;

static uint64_t random_bits(void) {
    state ^= state << 13; state ^= state >> 7; state ^= state << 17;
    return state;
}

static size_t below(size_t n) { return random_bits() % n; }
static double unit(void) { return (double)(random_bits() >> 11) / (double)(1ull << 53); }
static double power(size_t most) { return exp2((double)below(2 * most + 1) - (double)most); }
static double whole(void) { return (double)below(7) - 3.0; }
static double wide(void) { return (unit() - 0.5) * power(20); }

/* Zeros, ones, the ends of the range, infinities and NaN. */
static double odd(void) {
    static const double values[] = { 0.0, -0.0, 1.0, -1.0, 0.5, 2.0, 1e-12, 1e12, 1e150, -1e150, 1e300, -1e300, 1e-300, 1e-320, INFINITY, -INFINITY, NAN };
    return values[below(sizeof values / sizeof *values)];
}

/* 0: as they are; 1: any m, sigma and weight; 2: and any w; 3, 4: whole numbers, so that pivots tie and zeros turn up (4: weights too); 5: numbers of all sizes;
 * 6: most quotes at one k; 7: y and h of -3/4, 0 and 3/4, which are exact, so that the block ties with the constraints. Then odd values, now and then. */
static Question asked(void) {
    static const double ends[] = { -3.0, 0.0, 0.0, 3.0 };
    size_t kind = below(8), count = kind == 7 ? (size_t)4 << below(3) : below(16) ? 5 + below(4) : below(257);
    Question q = quotes(below(2), count);
    double scale = below(2) ? 1.0 : power(20), part = power(6);
    if (kind > 0) { q.m = unit() - 0.5; q.sigma = power(6); }
    if (kind == 3 || kind == 4) { q.m = below(2) ? 0.0 : whole(); q.sigma = power(2); }
    if (kind == 7) { q.m = 0.0; q.sigma = 4.0; }
    for (size_t i = 0; i < count; i++) {
        if (kind > 0) q.t[i] *= scale;
        if (kind == 2) q.w[i] *= 3.0 * unit();
        if (kind == 3 || kind == 4) { q.k[i] = whole(); q.w[i] = whole(); }
        if (kind == 4) q.t[i] = whole() * power(2);
        if (kind == 5) { q.k[i] = wide(); q.w[i] = wide(); q.t[i] = wide(); }
        if (kind == 6) q.k[i] = below(4) ? q.k[0] : whole();
        if (kind == 7) { q.k[i] = ends[i % 4]; q.w[i] = below(2) ? whole() : wide(); q.t[i] = part; }
    }
    if (!below(4)) {
        double pivots[] = { 1e-12, 0.1 * unit(), unit(), 1.0 };
        q.limits = (Limits){ below(2) ? whole() : -unit(), below(2) ? whole() : unit(), pivots[below(4)], below(2) ? 10.0 * unit() : 1e6 };
    }
    double *any[] = { &q.k[below(8)], &q.w[below(8)], &q.t[below(8)], &q.m, &q.sigma, &q.limits.a_min, &q.limits.a_max, &q.limits.pivot_tolerance, &q.limits.feasibility_tolerance };
    while (!below(8)) *any[below(9)] = odd();
    return q;
}

static bool same(const Cell *a, const Cell *b) {
    return a->some == b->some && !memcmp(&a->objective, &b->objective, 8) && !memcmp(a->x, b->x, 24) && !memcmp(a->active, b->active, 7) &&
           a->faces == b->faces && a->updates == b->updates;
}

int main(int count, char **words) {
    if (count == 3) {
        Question q = quotes(!strcmp(words[2], "one"), 5);
        Cell (*side)(const Question *) = !strcmp(words[1], "port") ? measured_port : !strcmp(words[1], "own") ? measured_own : !strcmp(words[1], "shared") ? measured_shared : measured_hypot;
        printf("%llu\n", (unsigned long long)side(&q).faces);
        return 0;
    }
    long cells = count == 2 ? atol(words[1]) : 0, some = 0, one = 0, different = 0;
    for (long i = 0; i < cells; i++) {
        Question q = asked();
        Cell port = measured_port(&q), own = measured_own(&q), shared = measured_shared(&q);
        some += port.some;
        one += port.faces == 1;
        different += !same(&port, &own) || !same(&port, &shared);
    }
    printf("%ld cells compared (%ld with an answer, %ld of these with one face): %ld different\n", cells, some, one, different);
    return cells == 0 || different > 0;
}
