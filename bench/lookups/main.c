/* One call of what an app calls most, so that its instructions can be counted: lookups NAME COUNT, of slices or of quotes. Built and run by bench/run lookups.
 * What a C program pays is counted: the functions of the header over records, and the library behind them. */
#include "kesupayro.h"

#include <stdio.h>
#include <stdlib.h>
#include <string.h>

enum { SLICES = 32, AXIS = 64, QUOTES = 256 };

static PortSviSlice slices[SLICES];
static PortQuote quotes[QUOTES];
static uint64_t capped[QUOTES];
static double axis_k[AXIS], axis_tau[AXIS], room[3 * AXIS * AXIS];
static volatile double sink;

__attribute__((noinline)) void measured_eval(size_t n) { sink = port_eval(slices[n - 1], 0.3).w; }
__attribute__((noinline)) void measured_minimum(size_t n) { sink = port_minimum(slices[n - 1]).value; }
__attribute__((noinline)) void measured_surface(size_t n) { sink = port_surface(slices, n); }
__attribute__((noinline)) void measured_bracket(size_t n) { sink = port_bracket(slices, n, PORT_REJECT, 0.3, (double)n - 0.5).x; }
__attribute__((noinline)) void measured_region(size_t n) { sink = port_region(slices, n, PORT_REJECT, 0.3, (double)n - 0.5).calibrated; }
__attribute__((noinline)) void measured_total_variance(size_t n) { sink = port_total_variance(slices, n, PORT_REJECT, 0.3, (double)n - 0.5).total.w; }
__attribute__((noinline)) void measured_covers_nodes(size_t n) { sink = port_covers_nodes(slices, n, axis_k, AXIS, axis_tau, AXIS).all; }
__attribute__((noinline)) void measured_diagnose(size_t n)
{
    PortDiagnosticsConfig c = {1e-10, 1e-12};
    sink = (double)port_diagnose(slices, n, PORT_REJECT, axis_k, AXIS, axis_tau, AXIS, c, room, 3 * AXIS * AXIS).report.butterfly.points;
}
/* The intake alone, of quotes with a number each: a tau of 0 refuses them as soon as repeats are dropped. */
__attribute__((noinline)) void measured_intake(size_t n) { sink = (double)port_fit_quotes(0, port_default_config(), quotes, n, room, 4 * n, capped, n).kept; }

static const struct {
    const char *name;
    void (*call)(size_t);
    size_t most;
} calls[] = {
#define CALL(name, most) {#name, measured_##name, most}
    CALL(eval, SLICES), CALL(minimum, SLICES), CALL(surface, SLICES), CALL(bracket, SLICES), CALL(region, SLICES),
    CALL(total_variance, SLICES), CALL(covers_nodes, SLICES), CALL(diagnose, SLICES), CALL(intake, QUOTES),
};

int main(int count, char **words)
{
    for (int i = 0; i < SLICES; i++)
        slices[i] = (PortSviSlice){1 + i, 0.25 + 0.25 * i, 0.5, 0.1, 0, 3, {-1, 1}};
    for (int i = 0; i < QUOTES; i++)
        quotes[i] = (PortQuote){1 + i, (i - QUOTES / 2) / 256.0, 0.04, 1};
    size_t n = count == 3 ? (size_t)atoi(words[2]) : 0;
    for (int i = 0; i < AXIS; i++)
        axis_k[i] = -2 + 4.0 * i / AXIS, axis_tau[i] = 1 + (double)(n - 1) * i / (AXIS - 1);
    for (size_t i = 0; n >= 1 && i < sizeof calls / sizeof *calls; i++)
        if (!strcmp(calls[i].name, words[1]) && n <= calls[i].most) {
            calls[i].call(n);
            return 0;
        }
    fprintf(stderr, "lookups NAME COUNT\n");
    return 2;
}
