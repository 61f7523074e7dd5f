/* The stack of each export, called with what takes it deepest. Built and run by bench/run stack and by bindings/test.
 *     stack                   a line for each export: its name and the bytes that it takes, counted from the caller's frame, on a stack that was painted: what is no longer
 *                             paint was used, and what takes fewer than LEAST shows as LEAST
 *     stack within [BYTES]    each export on a thread with that much stack and no more (PORT_STACK); the last line is 'N passed, M failed'
 *     stack smile, down       writes a house file with which the program goes deep (bench/stack/program.c) */
#define _GNU_SOURCE
#include "kesupayro.h"

#include "small_stack.h"
#include <math.h>
#include <signal.h>
#include <stdio.h>
#include <stdlib.h>
#include <string.h>
#include <sys/resource.h>
#include <sys/wait.h>

enum { PAINTED = 1 << 19, PAINT = 0xa5, LEAST = 256, MOST = 256, SLICES = 32, AXIS = 64 };

static double k[MOST], w[MOST], weight[MOST], residuals[4 * MOST], axis_k[AXIS], axis_tau[AXIS], room[3 * AXIS * AXIS];
static uint64_t capped[MOST];
static uint8_t file[8300], answer[PORT_MOST_ANSWER];
static PortSviSlice slices[SLICES];
static PortCheck check;
static volatile double sink;

/* Quotes off a smile, or curved down, so that every cell tries all faces; some weights are capped. */
static size_t quotes(int down)
{
    for (size_t i = 0; i < MOST; i++) {
        double x = -0.4 + 0.8 * (double)i / (MOST - 1);
        k[i] = x;
        w[i] = down ? 0.2 - 0.1 * x * x : 0.01 + 0.1 * (-0.3 * x + sqrt(x * x + 0.0225)) + 1e-5 * (double)(i % 3);
        weight[i] = i % 50 == 7 ? 1000 : 1;
    }
    return MOST;
}

/* The same quotes as a house file with a small grid. */
static size_t house(int down)
{
    uint8_t *p = file;
    uint32_t one = 1, n = (uint32_t)quotes(down);
    double tau = 0.25;
    PortFitConfig c = port_default_config();
    c.grid = 9;
    memcpy(p, &one, 4), p += 4;
    memcpy(p, &c, 88), p += 88;
    memcpy(p, &one, 4), p += 4;
    memcpy(p, &tau, 8), p += 8;
    memcpy(p, &n, 4), p += 4;
    for (uint64_t i = 0; i < n; i++) {
        memcpy(p, &i, 8), memcpy(p + 8, k + i, 8), memcpy(p + 16, w + i, 8), memcpy(p + 24, weight + i, 8);
        p += 32;
    }
    return (size_t)(p - file);
}

static void surface(void)
{
    for (int i = 0; i < SLICES; i++)
        slices[i] = (PortSviSlice){1 + i, 0.25 + 0.01 * i, 0.5, 0.1, 0, 3, {-1, 1}};
    for (int i = 0; i < AXIS; i++)
        axis_k[i] = -2 + 4.0 * i / AXIS, axis_tau[i] = 0.25 + 0.6 * i;
}

/* numbers of every size, for the elementary functions and their rarer ways */
static double some(int i)
{
    static const double odd[] = {0, -0.0, 1, 2, 4, 2.25, 5e-324, 1e-310, 1.7976931348623157e308, 1e308, INFINITY, -INFINITY, NAN, -1, 0.1, 1e-8};
    if (i < 16)
        return odd[i];
    uint64_t s = (uint64_t)i * 0x9e3779b97f4a7c15u;
    s ^= s >> 29, s *= 0xbf58476d1ce4e5b9u, s ^= s >> 32, s >>= 1;
    double d;
    memcpy(&d, &s, 8);
    return d;
}

static void fits(int down)
{
    size_t n = quotes(down);
    PortFitConfig c = port_default_config();
    c.grid = 9;
    sink = port_fit_slice(0.25, c, k, n, w, n, weight, n, residuals, 4 * n, capped, n).objective;
}

/* The same quotes as they came in, each at most once. */
static void fits_quotes(int down)
{
    static PortQuote sent[MOST];
    size_t n = quotes(down);
    PortFitConfig c = port_default_config();
    c.grid = 9;
    for (size_t i = 0; i < n; i++)
        sent[i].number = i, sent[i].k = k[i], sent[i].w = w[i], sent[i].weight = weight[i];
    sink = port_fit_quotes(0.25, c, sent, n, residuals, 4 * n, capped, n).fit.objective;
}

static void do_abi(void) { sink = port_abi(); }
static void do_default_policy(void) { sink = port_default_policy(); }
static void do_default_config(void) { sink = port_default_config().a_min; }
static void do_fit_slice(void) { fits(0), fits(1); }
static void do_fit_quotes(void) { fits_quotes(0), fits_quotes(1); }
static void do_run(void) { sink = (double)port_run(file, house(0), answer, sizeof answer), sink = (double)port_run(file, house(1), answer, sizeof answer); }
static void do_k_range(void) { sink = port_k_range(-1, 1).range.lo; }
static void do_contains(void) { sink = port_contains(slices[0].k_range, 0.5); }
static void do_slice(void) { sink = port_slice(1, 0.25, 0.5, 0.1, 0, 3, slices[0].k_range).slice.tau; }
static void do_minimum(void) { sink = port_minimum(slices[3]).value; }
static void do_lee_slope(void) { sink = port_lee_slope(slices[3]).value; }
static void do_eval(void)
{
    for (int i = 0; i < 64; i++)
        sink = port_eval(slices[3], some(i)).w;
}
static void do_check_point(void) { sink = port_check_point(0, 1); }
static void do_total(void) { sink = port_total(1, 0, 0, 1).total.w; }
static void do_surface(void) { sink = port_surface(slices, SLICES); }
static void do_bracket(void)
{
    for (int i = 0; i < AXIS; i++)
        sink = port_bracket(slices, SLICES, PORT_CONSTANT_VOL, 0, axis_tau[i]).x;
}
static void do_region(void)
{
    for (int i = 0; i < AXIS; i++)
        sink = port_region(slices, SLICES, PORT_REJECT, 0, axis_tau[i]).calibrated;
}
static void do_total_variance(void)
{
    for (int i = 0; i < AXIS; i++)
        sink = port_total_variance(slices, SLICES, PORT_CONSTANT_VOL, axis_k[i], axis_tau[i]).total.w;
}
static void do_covers_nodes(void) { sink = port_covers_nodes(slices, SLICES, axis_k, AXIS, axis_tau, AXIS).all; }
static void do_diagnose(void)
{
    PortDiagnosticsConfig c = {1e-10, 1e-12};
    sink = port_diagnose(slices, SLICES, PORT_REJECT, axis_k, AXIS, axis_tau, AXIS, c, room, 3 * AXIS * AXIS).number;
}
static void do_check_record(void)
{
    PortDiagnosticPoint p = {0, 1, -1};
    port_check_record(&check, p, 0);
}
static void do_check_clean(void) { sink = port_check_clean(check); }
static void do_report_clean(void)
{
    PortSurfaceDiagnostics d = {0};
    sink = port_report_clean(d);
}
static void do_solve(void)
{
    double m[36], rhs[6] = {1, 2, 3, 4, 5, 6}, x[6];
    uint64_t updates;
    for (size_t n = 0; n <= 7; n++) {
        for (int i = 0; i < 36; i++)
            m[i] = sin(1 + 7 * i);
        sink = port_solve(m, rhs, n, 1e-14, x, &updates);
    }
}
static void do_cell(void)
{
    PortLimits l = {1e-8, 0.3, 1e-14, 1e-9};
    for (int down = 0; down < 2; down++) {
        size_t n = quotes(down);
        sink = port_cell(k, n, w, n, weight, n, l, 0, 0.2).objective;
    }
}
static void do_sqrt(void)
{
    for (int i = 0; i < 4000; i++)
        sink = port_sqrt(some(i));
}
static void do_hypot(void)
{
    for (int i = 0; i < 4000; i++)
        sink = port_hypot(some(i), some(i * 7 % 4001)), sink = port_hypot(some(i), some(i) * 0.75);
}
static void do_ln(void)
{
    for (int i = 0; i < 4000; i++)
        sink = port_ln(some(i));
}
static void do_exp(void)
{
    for (int i = 0; i < 4000; i++)
        sink = port_exp(some(i)), sink = port_exp(-750 + 0.37 * i);
}
static const struct {
    const char *name;
    void (*call)(void);
} calls[] = {
#define CALL(name) {"port_" #name, do_##name}
    CALL(abi), CALL(default_config), CALL(fit_slice), CALL(fit_quotes), CALL(run),         CALL(k_range),  CALL(contains),    CALL(slice),        CALL(minimum),     CALL(lee_slope),    CALL(eval),
    CALL(check_point),    CALL(total),     CALL(surface),     CALL(default_policy), CALL(bracket),  CALL(region),      CALL(total_variance), CALL(covers_nodes), CALL(diagnose),
    CALL(check_record),   CALL(check_clean), CALL(report_clean), CALL(solve), CALL(cell),        CALL(sqrt),         CALL(hypot),       CALL(ln),           CALL(exp),
};

enum { CALLS = sizeof calls / sizeof *calls };

static void (*call)(void);
static size_t used;

/* What the call leaves of the paint, from the frame of this function on. */
static void painted(void)
{
    unsigned char *here = __builtin_frame_address(0), *low = here - PAINTED;
    memset(low, PAINT, PAINTED - LEAST);
    call();
    while (*low == PAINT)
        low++;
    used = (size_t)(here - low);
}

static int print_used(void)
{
    for (size_t i = 0; i < CALLS; i++) {
        call = calls[i].call;
        if (with_stack(2 * PAINTED, painted))
            return 1;
        printf("%s %zu\n", calls[i].name, used);
    }
    return 0;
}

/* Each export in a process of its own, which ends where the stack does. */
static int within(size_t bytes)
{
    const struct rlimit none = {0, 0};
    int passed = 0, failed = 0;
    for (size_t i = 0; i < CALLS; i++) {
        int status = -1;
        fflush(stdout);
        pid_t child = fork();
        if (child == 0) {
            setrlimit(RLIMIT_CORE, &none);
            _exit(with_stack(bytes, calls[i].call));
        }
        if (child > 0 && waitpid(child, &status, 0) == child && status == 0)
            passed++;
        else if (status != -1 && WIFSIGNALED(status) && WTERMSIG(status) == SIGSEGV)
            failed++, printf("FAILED %s: more than %zu bytes of stack\n", calls[i].name, bytes);
        else
            failed++, printf("FAILED %s: not called, status %d\n", calls[i].name, status);
    }
    printf("%d passed, %d failed\n", passed, failed);
    return failed != 0;
}

int main(int count, char **words)
{
    const char *word = count > 1 ? words[1] : "";
    surface();
    if (strcmp(word, "within") == 0)
        return within(count > 2 ? strtoul(words[2], NULL, 10) : PORT_STACK);
    if (strcmp(word, "smile") == 0 || strcmp(word, "down") == 0)
        return fwrite(file, house(*word == 'd'), 1, stdout) != 1;
    return *word ? 2 : print_used();
}
