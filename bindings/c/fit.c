/* The fit from C: layouts, what each call answers to good and to bad input, buffers that stay as they were, a small stack.
 * Its last line is 'N passed, M failed'. */
#define _DEFAULT_SOURCE
#include "kesupayro.h"

#include "expect.h"
#include "small_stack.h"
#include <math.h>
#include <string.h>

enum { MOST = 257 };

/* A fit's columns and buffers, with marks in the room beyond what is lent. */
static double k[MOST], w[MOST], weight[MOST], residuals[4 * MOST + 4];
static uint64_t capped[MOST + 1];
static PortQuote sent[MOST];
static const double mark = -77.0;
static const uint64_t mark_count = 7777;

/* n quotes off a smile, weight 1, and buffers full of marks. */
static void quotes(size_t n)
{
    for (size_t i = 0; i < n; i++) {
        double x = -0.3 + 0.6 * (double)i / (double)(n > 1 ? n - 1 : 1);
        k[i] = x;
        w[i] = 0.01 + 0.1 * (-0.3 * x + sqrt(x * x + 0.0225)) + 1e-5 * (double)(i % 3);
        weight[i] = 1;
    }
    for (size_t i = 0; i < sizeof residuals / sizeof *residuals; i++)
        residuals[i] = mark;
    for (size_t i = 0; i < sizeof capped / sizeof *capped; i++)
        capped[i] = mark_count;
}

static PortFitAnswer fit(double tau, PortFitConfig config, size_t n)
{
    return port_fit_slice(tau, config, k, n, w, n, weight, n, residuals, 4 * n, capped, n);
}

/* The buffers are as quotes() left them. */
static int untouched(void)
{
    int same = 1;
    for (size_t i = 0; i < sizeof residuals / sizeof *residuals; i++)
        same &= residuals[i] == mark;
    for (size_t i = 0; i < sizeof capped / sizeof *capped; i++)
        same &= capped[i] == mark_count;
    return same;
}

/* A refusal before the search: the number, every other value 0, buffers untouched. */
static int refused(PortFitAnswer a, uint32_t number)
{
    PortFitAnswer zero;
    memset(&zero, 0, sizeof zero);
    int plain = a.number == number && a.observed == 0 && a.required == 0 && a.rmse_vol == 0 && a.max_rmse_vol == 0 && a.capped == 0;
    int slice = a.slice.tau == 0 && a.slice.a == 0 && a.slice.b == 0 && a.slice.rho == 0 && a.slice.m == 0 && a.slice.sigma == 0;
    int counts = memcmp(&a.counts, &zero.counts, sizeof a.counts) == 0 && memcmp(a.active, zero.active, sizeof a.active) == 0;
    int sums = a.objective == 0 && a.objective_params == 0 && a.lee_margin == 0 && a.a_margin == 0;
    return plain && slice && counts && sums && untouched();
}

/* A cell tries one face or 64, and its eliminations update at most 8 or 3,438 matrix entries. */
static int within_bounds(PortCounts c)
{
    uint64_t all = (c.faces - c.cells) / 63;
    return c.faces == c.cells + 63 * all && c.updates <= 8 * (c.cells - all) + 3438 * all;
}

static void layouts(void)
{
    EXPECT(sizeof(PortKRange) == 16 && sizeof(PortSviSlice) == 64 && sizeof(PortFitConfig) == 88 && sizeof(PortCounts) == 48);
    EXPECT(offsetof(PortCounts, faces) == 32 && offsetof(PortCounts, updates) == 40);
    EXPECT(sizeof(PortQuote) == 32 && offsetof(PortQuote, k) == 8 && offsetof(PortQuote, w) == 16 && offsetof(PortQuote, weight) == 24);
    EXPECT(sizeof(PortFitAnswer) == 200 && offsetof(PortFitAnswer, slice) == 40 && offsetof(PortFitAnswer, active) == 136);
    EXPECT(offsetof(PortFitAnswer, counts) == 144 && offsetof(PortFitAnswer, capped) == 192 && sizeof(PortQuotesAnswer) == 216);
}

static void elementary(void)
{
    EXPECT(port_sqrt(2.25) == 1.5);
    EXPECT(isnan(port_sqrt(-1)) && isnan(port_sqrt(NAN)) && port_sqrt(INFINITY) == INFINITY);
    EXPECT(port_sqrt(0.0) == 0 && signbit(port_sqrt(-0.0)));
    EXPECT(port_sqrt(2) == sqrt(2) && port_sqrt(5e-324) == sqrt(5e-324));
    EXPECT(port_hypot(3, 4) == 5 && port_hypot(INFINITY, NAN) == INFINITY && isnan(port_hypot(1, NAN)));
    EXPECT(port_hypot(1.7e308, 1.7e308) == INFINITY);
    EXPECT(port_ln(1) == 0 && port_ln(0) == -INFINITY && isnan(port_ln(-1)) && port_ln(INFINITY) == INFINITY);
    EXPECT(port_exp(0) == 1 && port_exp(-INFINITY) == 0 && port_exp(711) == INFINITY && port_exp(-747) == 0 && isnan(port_exp(NAN)));
    EXPECT(fabs(port_exp(port_ln(10)) - 10) < 1e-13);
}

static void defaults(void)
{
    PortFitConfig c = port_default_config();
    EXPECT(c.grid == 21 && c.refinements == 12 && c.max_recentres == 40 && c.min_observations == 5);
    EXPECT(c.sigma_lo == 0.005 && c.sigma_hi == 10 && c.a_min == 1e-8 && c.max_rmse_vol == 0.02);
    EXPECT(c.pivot_tolerance == 1e-12 && c.feasibility_tolerance == 1e-12 && c.max_weight_ratio == 10);
}

static void fits(void)
{
    PortFitConfig c = port_default_config();
    quotes(9);
    weight[4] = 16;
    PortFitAnswer a = fit(0.5, c, 9);
    EXPECT(a.number == PORT_FITTED && a.slice.tau == 0.5 && a.rmse_vol < 0.001);
    EXPECT(a.slice.k_range.lo == k[0] && a.slice.k_range.hi == k[8]);
    EXPECT(a.counts.passes > 0 && a.counts.cells == a.counts.passes * 21 * 21 && a.counts.faces >= a.counts.cells);
    EXPECT(a.counts.updates > 0 && a.counts.updates <= 3438 * a.counts.cells && within_bounds(a.counts));
    EXPECT(a.capped == 1 && capped[0] == 4 && capped[1] == mark_count);
    int rows = 1;
    for (int i = 0; i < 9; i++) {
        double x = k[i] - a.slice.m, fitted = a.slice.a + a.slice.b * (a.slice.rho * x + hypot(x, a.slice.sigma));
        rows &= residuals[4 * i] == k[i] && residuals[4 * i + 1] == w[i] && fabs(residuals[4 * i + 2] - fitted) < 1e-12;
        rows &= fabs(residuals[4 * i + 3] - (sqrt(w[i] / 0.5) - sqrt(fitted / 0.5))) < 1e-12;
    }
    EXPECT(rows && residuals[36] == mark);
    quotes(256);
    EXPECT(fit(0.5, c, 256).number == PORT_FITTED && residuals[1024] == mark && capped[0] == mark_count);
}

/* Each refusal of the fit. */
static void refusals(void)
{
    PortFitConfig c = port_default_config(), bad;
    quotes(9);
    EXPECT(refused(port_fit_slice(0.5, c, k, 9, w, 8, weight, 9, residuals, 36, capped, 9), PORT_REFUSED_LENGTHS));
    EXPECT(refused(port_fit_slice(0.5, c, k, 9, w, 9, weight, 8, residuals, 36, capped, 9), PORT_REFUSED_LENGTHS));
    EXPECT(refused(port_fit_slice(0.5, c, k, 9, w, 9, weight, 9, residuals, 35, capped, 9), PORT_REFUSED_LENGTHS));
    EXPECT(refused(port_fit_slice(0.5, c, k, 9, w, 9, weight, 9, residuals, 36, capped, 8), PORT_REFUSED_LENGTHS));
    quotes(257);
    EXPECT(refused(fit(0.5, c, 257), PORT_REFUSED_SIZE));
    quotes(9);
    bad = c, bad.grid = 256;
    EXPECT(refused(fit(0.5, bad, 9), PORT_REFUSED_SIZE));
    bad = c, bad.refinements = UINT64_MAX;
    EXPECT(refused(fit(0.5, bad, 9), PORT_REFUSED_SIZE));
    bad = c, bad.max_recentres = 1001;
    EXPECT(refused(fit(NAN, bad, 9), PORT_REFUSED_SIZE));
    k[8] = NAN;
    EXPECT(refused(fit(0.5, c, 9), PORT_REFUSED_BAD_OBSERVATION));
    quotes(9), w[0] = -1e-300;
    EXPECT(refused(fit(0.5, c, 9), PORT_REFUSED_BAD_OBSERVATION));
    quotes(9), weight[3] = 0;
    EXPECT(refused(fit(0.5, c, 9), PORT_REFUSED_BAD_OBSERVATION));
    quotes(9), bad = c, bad.grid = 4;
    EXPECT(refused(fit(0.5, bad, 9), PORT_REFUSED_SETTINGS));
    bad = c, bad.sigma_lo = bad.sigma_hi;
    EXPECT(refused(fit(NAN, bad, 9), PORT_REFUSED_SETTINGS));
    EXPECT(refused(fit(0, c, 9), PORT_REFUSED_TAU) && refused(fit(NAN, c, 9), PORT_REFUSED_TAU) && refused(fit(INFINITY, c, 9), PORT_REFUSED_TAU));
    PortFitAnswer a = fit(0.5, c, 4);
    EXPECT(a.number == PORT_REFUSED_TOO_FEW && a.observed == 4 && a.required == 5 && a.counts.passes == 0 && a.counts.updates == 0 && untouched());
    a = fit(0.5, c, 0);
    EXPECT(a.number == PORT_REFUSED_TOO_FEW && a.observed == 0 && untouched());
    for (int i = 0; i < 9; i++)
        k[i] = 0.1;
    EXPECT(refused(fit(0.5, c, 9), PORT_REFUSED_NO_SPAN));
    quotes(9), weight[0] = 5e-324, weight[1] = 1e300, weight[2] = 1e300, weight[3] = 1e300, weight[4] = 1e300, weight[5] = 1e300;
    EXPECT(refused(fit(0.5, c, 9), PORT_REFUSED_WEIGHTS));
    quotes(9);
    for (int i = 0; i < 9; i++)
        w[i] = i % 2 ? 1e200 : 2e200;
    a = fit(0.5, c, 9);
    EXPECT(a.number == PORT_REFUSED_NO_FACE && a.counts.passes == 1 && a.counts.cells == 441 && untouched());
    EXPECT(a.counts.faces == 441 * 64 && a.counts.updates > 0 && within_bounds(a.counts));
    quotes(9);
    for (int i = 0; i < 9; i++)
        w[i] = 0.01;
    a = fit(0.25, c, 9);
    EXPECT(a.number == PORT_REFUSED_GRID_EDGE && a.counts.passes > 0 && a.counts.updates > 0 && within_bounds(a.counts) && untouched());
    quotes(9), bad = c, bad.max_rmse_vol = 1e-9;
    a = fit(0.5, bad, 9);
    EXPECT(a.number == PORT_REFUSED_RMSE && a.rmse_vol > 1e-9 && a.max_rmse_vol == 1e-9 && a.counts.passes > 0 && untouched());
    /* the search of a fit that is refused for its residuals is that of the fit that is accepted */
    PortFitAnswer accepted = fit(0.5, c, 9);
    EXPECT(accepted.number == PORT_FITTED && a.counts.updates > 0 && memcmp(&a.counts, &accepted.counts, sizeof a.counts) == 0);
}

/* The columns as quotes, each sent `times` times, with buffers full of marks. */
static size_t send(size_t n, size_t times)
{
    quotes(n);
    for (size_t i = 0; i < n * times; i++)
        sent[i].number = i % n, sent[i].k = k[i % n], sent[i].w = w[i % n], sent[i].weight = weight[i % n];
    return n * times;
}

static PortQuotesAnswer fit_sent(double tau, PortFitConfig config, size_t n)
{
    return port_fit_quotes(tau, config, sent, n, residuals, 4 * n, capped, n);
}

/* A refusal before repeats are dropped: as many kept as read, zeros, buffers untouched. */
static int sent_refused(PortQuotesAnswer a, uint32_t number, size_t n)
{
    return a.read == n && a.kept == n && refused(a.fit, number);
}

/* Two fits with one answer, bit for bit. */
static int same_fit(PortFitAnswer a, PortFitAnswer b)
{
    int found = a.number == b.number && memcmp(&a.slice, &b.slice, sizeof a.slice) == 0 && memcmp(&a.counts, &b.counts, sizeof a.counts) == 0;
    int sums = a.objective == b.objective && a.objective_params == b.objective_params && a.rmse_vol == b.rmse_vol;
    int margins = a.lee_margin == b.lee_margin && a.a_margin == b.a_margin && memcmp(a.active, b.active, sizeof a.active) == 0;
    return found && sums && margins && a.capped == b.capped;
}

/* Quotes as they came in: the same answer, bit for bit, as the columns of the first of each. */
static void quotes_as_sent(void)
{
    PortFitConfig c = port_default_config(), bad;
    static double lone[4 * MOST];
    quotes(9), weight[4] = 16;
    PortFitAnswer once = fit(0.5, c, 9);
    memcpy(lone, residuals, sizeof lone);
    send(9, 3);
    sent[4].weight = sent[13].weight = sent[22].weight = 16;
    PortQuotesAnswer a = fit_sent(0.5, c, 27);
    EXPECT(a.read == 27 && a.kept == 9 && a.fit.number == PORT_FITTED && a.fit.capped == 1 && capped[0] == 4 && capped[1] == mark_count);
    EXPECT(same_fit(a.fit, once));
    EXPECT(memcmp(residuals, lone, 36 * sizeof *lone) == 0 && residuals[36] == mark);

    /* nine copies of one quote are one quote */
    send(1, 9);
    a = fit_sent(0.25, c, 9);
    EXPECT(a.read == 9 && a.kept == 1 && a.fit.number == PORT_REFUSED_TOO_FEW && a.fit.observed == 1 && a.fit.required == 5 && untouched());

    /* the room is for what came in; then sizes, then each quote, repeats and all */
    size_t n = send(9, 3);
    EXPECT(sent_refused(port_fit_quotes(0.5, c, sent, n, residuals, 4 * n - 1, capped, n), PORT_REFUSED_LENGTHS, n));
    EXPECT(sent_refused(port_fit_quotes(0.5, c, sent, n, residuals, 4 * n, capped, n - 1), PORT_REFUSED_LENGTHS, n));
    bad = c, bad.grid = 256;
    sent[26].k = NAN;
    EXPECT(sent_refused(fit_sent(0.5, bad, n), PORT_REFUSED_SIZE, n) && sent_refused(fit_sent(NAN, c, n), PORT_REFUSED_BAD_OBSERVATION, n));
    send(1, 257);
    EXPECT(sent_refused(fit_sent(0.5, c, 257), PORT_REFUSED_SIZE, 257));
    send(1, 256);
    a = fit_sent(0.5, c, 256);
    EXPECT(a.read == 256 && a.kept == 1 && a.fit.number == PORT_REFUSED_TOO_FEW && untouched());
    EXPECT(port_fit_quotes(0.5, c, NULL, 0, NULL, 0, NULL, 0).fit.number == PORT_REFUSED_TOO_FEW);
    bad = c, bad.grid = 4;
    send(9, 2);
    a = fit_sent(0.5, bad, 18);
    EXPECT(a.read == 18 && a.kept == 9 && refused(a.fit, PORT_REFUSED_SETTINGS) && refused(fit_sent(0, c, 18).fit, PORT_REFUSED_TAU));
    /* bytes that are no whole quotes, as another language may hand them over */
    uint64_t sizes[4], counts[11];
    double reals[7], values[14];
    bool active[7];
    port_pack_config(c, sizes, reals);
    EXPECT(port_raw_fit_quotes(0.5, sizes, reals, (const uint8_t *)sent, 32 * 9 - 1, residuals, 72, capped, 18, counts, values, active) == PORT_REFUSED_LENGTHS && untouched());
    for (int i = 0; i < 11; i++)
        EXPECT(counts[i] == 0);
}

/* What two dealers quote alike comes under two numbers, and both count: the answer is that of all columns. */
static void second_quotes(void)
{
    PortFitConfig c = port_default_config();
    static const uint64_t others[] = {UINT64_MAX, 4 + ((uint64_t)1 << 32), 99};
    static double all[4 * MOST];
    quotes(9);
    for (int i = 9; i < 12; i++)
        k[i] = k[4], w[i] = w[4], weight[i] = weight[4];
    PortFitAnswer columns = fit(0.5, c, 12);
    memcpy(all, residuals, sizeof all);
    send(9, 1);
    for (int i = 0; i < 3; i++)
        sent[9 + i] = sent[4], sent[9 + i].number = others[i];
    PortQuotesAnswer a = fit_sent(0.5, c, 12);
    EXPECT(a.read == 12 && a.kept == 12 && a.fit.number == PORT_FITTED && same_fit(a.fit, columns));
    EXPECT(memcmp(residuals, all, 48 * sizeof *all) == 0 && residuals[48] == mark);
    /* each of the four sent again */
    for (int i = 0; i < 3; i++)
        sent[12 + i] = sent[9 + i];
    sent[15] = sent[4];
    quotes(9);
    a = fit_sent(0.5, c, 16);
    EXPECT(a.read == 16 && a.kept == 12 && same_fit(a.fit, columns));
    EXPECT(memcmp(residuals, all, 48 * sizeof *all) == 0 && residuals[48] == mark);
    /* at +0 and at -0, under two numbers */
    send(5, 1), sent[1].k = 0.0, sent[3] = sent[1], sent[3].k = -0.0, sent[3].number = 3;
    EXPECT(fit_sent(0.5, c, 5).kept == 5);
}

/* The first n quotes sent are refused with 44. */
static int two_contents(size_t n)
{
    return sent_refused(fit_sent(0.5, port_default_config(), n), PORT_REFUSED_TWO_CONTENTS, n);
}

/* One number with two contents, in whatever bit, beside whatever comes again. */
static void clashes(void)
{
    PortFitConfig c = port_default_config(), bad;
    send(9, 2), sent[17].k = nextafter(sent[17].k, 1);
    EXPECT(two_contents(18));
    send(9, 2), sent[9].w = nextafter(sent[9].w, 1);
    EXPECT(two_contents(18));
    send(9, 2), sent[0].weight = nextafter(1, 2);
    EXPECT(two_contents(18));
    /* +0 and -0 are two contents */
    send(9, 2), sent[4].k = 0.0, sent[13].k = -0.0;
    EXPECT(two_contents(18));
    send(9, 2), sent[4].w = -0.0, sent[13].w = 0.0;
    EXPECT(two_contents(18));
    /* 0 and the largest are numbers as others are; numbers that only end alike are two */
    send(9, 1), sent[5].number = 0;
    EXPECT(two_contents(9));
    send(9, 1), sent[0].number = sent[5].number = UINT64_MAX;
    EXPECT(two_contents(9));
    send(9, 1), sent[5].number = (uint64_t)1 << 32;
    EXPECT(fit_sent(0.5, c, 9).kept == 9);
    /* the first and the last of the most; both sent again; one of them with the content of an earlier quote of another number */
    send(256, 1), sent[255].number = sent[0].number;
    EXPECT(two_contents(256));
    send(9, 2), sent[9].weight = 2, sent[16] = sent[9], sent[17] = sent[0];
    EXPECT(two_contents(18));
    send(2, 1), sent[2] = sent[1], sent[1].k = sent[0].k, sent[1].w = sent[0].w;
    EXPECT(two_contents(3));

    /* before 1, 2 and 3; after 12, 11 and 10 */
    send(2, 1), sent[1].number = sent[0].number;
    bad = c, bad.grid = 4;
    EXPECT(sent_refused(fit_sent(NAN, bad, 2), PORT_REFUSED_TWO_CONTENTS, 2));
    EXPECT(sent_refused(fit_sent(0, c, 2), PORT_REFUSED_TWO_CONTENTS, 2) && two_contents(2));
    EXPECT(sent_refused(port_fit_quotes(0.5, c, sent, 2, residuals, 7, capped, 2), PORT_REFUSED_LENGTHS, 2));
    bad = c, bad.grid = 256;
    EXPECT(sent_refused(fit_sent(0.5, bad, 2), PORT_REFUSED_SIZE, 2));
    send(3, 1), sent[1].number = sent[0].number, sent[2].w = -1;
    EXPECT(sent_refused(fit_sent(0.5, c, 3), PORT_REFUSED_BAD_OBSERVATION, 3));
}

static void number_of_8(uint8_t *at, uint64_t x)
{
    for (int i = 0; i < 8; i++)
        at[i] = (uint8_t)(x >> (8 * i));
}

static void float_of_8(uint8_t *at, double x)
{
    uint64_t bits;
    memcpy(&bits, &x, sizeof bits);
    number_of_8(at, bits);
}

/* The example that the rules print: nine records of number 7, k 0, w 0.25, weight 1 at tau 0.25. */
static void house_file(void)
{
    static uint8_t file[20 + 32 * 9], out[PORT_MOST_ANSWER];
    static const char answer[] = "read 9 kept 1\nrefused 3 1 5\n", malformed[] = "refused 43 0 0\n", clashing[] = "read 9 kept 9\nrefused 44 0 0\n";
    size_t length = sizeof answer - 1;
    file[4] = 1;
    float_of_8(file + 8, 0.25);
    file[16] = 9;
    for (int i = 0; i < 9; i++) {
        uint8_t *record = file + 20 + 32 * i;
        number_of_8(record, 7), float_of_8(record + 8, 0), float_of_8(record + 16, 0.25), float_of_8(record + 24, 1);
    }
    memset(out, '#', sizeof out);
    EXPECT(port_run(file, sizeof file, out, sizeof out) == length);
    EXPECT(memcmp(out, answer, length) == 0 && out[length] == '#');
    memset(out, '#', sizeof out);
    EXPECT(port_run(file, sizeof file, out, length - 1) == length && out[0] == '#');
    EXPECT(port_run(file, sizeof file, out, 0) == length && out[0] == '#');
    EXPECT(port_run(file, sizeof file, out, length) == length && out[0] == 'r' && out[length] == '#');
    EXPECT(port_run(file, sizeof file - 1, out, sizeof out) == sizeof malformed - 1 && memcmp(out, malformed, sizeof malformed - 1) == 0);
    EXPECT(port_run(file, 0, out, sizeof out) == sizeof malformed - 1);
    float_of_8(file + 20 + 32 * 8 + 24, 2);
    EXPECT(port_run(file, sizeof file, out, sizeof out) == sizeof clashing - 1 && memcmp(out, clashing, sizeof clashing - 1) == 0);
}

static void all(void)
{
    elementary();
    defaults();
    fits();
    refusals();
    quotes_as_sent();
    second_quotes();
    clashes();
    house_file();
}

int main(void)
{
    layouts();
    EXPECT(port_abi() == PORT_ABI);
    EXPECT(with_stack(PORT_STACK + TESTS_OWN, all) == 0);
    printf("%d passed, %d failed\n", passed, failed);
    return failed != 0;
}
