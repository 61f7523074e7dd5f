/* One of the elementary functions, ours or the platform's, over one array of numbers.
 *     driver               nanoseconds a call, best of many batches, ours beside the platform's
 *     driver NAME port|platform|none    one pass, to count instructions
 * The arguments are those of a fit: moderate numbers of both signs where the function takes them. */
#include <math.h>
#include <stdint.h>
#include <stdio.h>
#include <stdlib.h>
#include <string.h>
#include <time.h>

double port_sqrt(double x);
double port_hypot(double x, double y);
double port_ln(double x);
double port_exp(double x);

#define N 4096
double xs[N], ys[N], out[N]; /* seen from outside, so that no call is left out */

#define LOOP(name, call) __attribute__((noinline)) void name(void) { for (int i = 0; i < N; i++) { double x = xs[i], y = ys[i]; (void)x; (void)y; out[i] = call; __asm__ volatile("" ::: "memory"); } }
LOOP(measured_none, x)
LOOP(measured_port_sqrt, port_sqrt(x))
LOOP(measured_platform_sqrt, __builtin_sqrt(x))
LOOP(measured_port_hypot, port_hypot(x, y))
LOOP(measured_platform_hypot, hypot(x, y))
LOOP(measured_port_ln, port_ln(x))
LOOP(measured_platform_ln, log(x))
LOOP(measured_port_exp, port_exp(y))
LOOP(measured_platform_exp, exp(y))

typedef void (*loop)(void);
static const struct { const char *name; loop port, platform; } all[] = {
    {"sqrt", measured_port_sqrt, measured_platform_sqrt},
    {"hypot", measured_port_hypot, measured_platform_hypot},
    {"ln", measured_port_ln, measured_platform_ln},
    {"exp", measured_port_exp, measured_platform_exp},
};

static double best(loop f) {
    double least = 1e30;
    for (int k = 0; k < 400; k++) {
        struct timespec a, b;
        clock_gettime(CLOCK_MONOTONIC, &a);
        f();
        clock_gettime(CLOCK_MONOTONIC, &b);
        double t = (b.tv_sec - a.tv_sec) * 1e9 + (b.tv_nsec - a.tv_nsec);
        if (t < least) least = t;
    }
    return least / N;
}

int main(int count, char **words) {
    uint64_t s = 88172645463325252;
    for (int i = 0; i < N; i++) {
        s ^= s << 13; s ^= s >> 7; s ^= s << 17;
        xs[i] = ldexp(1.0 + (double)(s >> 12) / 4503599627370496.0, (int)(s % 21) - 10);
        s ^= s << 13; s ^= s >> 7; s ^= s << 17;
        ys[i] = ((double)(s >> 11) / 9007199254740992.0 - 0.5) * 16.0;
    }
    if (count == 3) {
        if (!strcmp(words[2], "none")) { measured_none(); return 0; }
        for (int k = 0; k < 4; k++)
            if (!strcmp(words[1], all[k].name)) { (strcmp(words[2], "port") ? all[k].platform : all[k].port)(); return 0; }
        return 2;
    }
    for (int k = 0; k < 4; k++) {
        double a = best(all[k].port), b = best(all[k].platform);
        printf("%s %.2f %.2f\n", all[k].name, a, b);
    }
    return 0;
}
