/* Kesupayro for C and C++: fit the smile of one expiry, price off it, put expiries together to a surface and test that for arbitrage.
 * Link target/staticlib/libport.a, which `tools/library` writes (x86-64 Linux):  cc -I include my.c target/staticlib/libport.a
 *
 * Every call has one answer for every input, NaN and infinities too, and that answer is proved: docs/PROMISES.md. No call allocates,
 * blocks, or keeps a pointer; nothing is kept between calls, so threads need no lock. PORT_STACK bytes of stack are enough.
 *
 * What a caller vouches for, and this is the whole list:
 *   - a pointer with its count points to that many values, which may be read (and written, where it is not const), and may be NULL where the
 *     count is 0; one without a count points to the one value or array that the declaration names;
 *   - a pointer is aligned as its type asks, and a bool that is passed in holds 0 or 1, as C and C++ themselves see to;
 *   - a buffer that is written is lent once: it shares no byte with another buffer of the call, and no other thread touches it meanwhile;
 *   - floating-point arithmetic of the calling thread is as a program starts with: it rounds to nearest, keeps subnormal numbers and traps nothing. Linking
 *     any part of a program with -ffast-math can change that for the whole of it, and with it the last bits of answers (bindings/c/surroundings.c).
 *
 * A refusal is a number (below). It leaves every lent buffer as it was, and the other fields of the answer 0 but for those said.
 * A type here is the Rust's (and the port's) of that name with Port before it. A count is 64 bits wide on every machine.
 *
 * The library exports functions over numbers and pointers only, which every machine and every language calls in the same way; those named port_raw_..
 * stand in the middle of this file. The functions over records, below them, are written here over those: inline, and nothing but the packing.
 */
#ifndef KESUPAYRO_H
#define KESUPAYRO_H

#include <stdbool.h>
#include <stddef.h>
#include <stdint.h>

#ifdef __cplusplus
extern "C" {
#endif

/* This header's number. It changes with every layout or meaning that a caller could notice, and docs/ABI.md says what changed with each.
 * A program that was compiled with one header and linked with another library can tell: port_abi() is the library's number. */
#define PORT_ABI 4
uint32_t port_abi(void);

/* Bytes of stack that are enough for every call, counted from the caller's frame: what the deepest takes (docs/SPEED.md, 'Stack'), and a margin. The stack of a thread
 * holds more besides: the frames of the program's own functions, and what the C library puts there, for which PTHREAD_STACK_MIN is enough. */
#define PORT_STACK 40960

/* What `number` says. */
enum {
    PORT_FITTED = 0,                   /* no refusal */
    PORT_REFUSED_SETTINGS = 1,         /* a setting out of range */
    PORT_REFUSED_TAU = 2,              /* tau is not finite and above 0 */
    PORT_REFUSED_TOO_FEW = 3,          /* fewer quotes (observed) than min_observations (required) */
    PORT_REFUSED_NO_SPAN = 4,          /* all quotes at one k, or too far apart to measure */
    PORT_REFUSED_WEIGHTS = 5,          /* the weights do not scale to numbers above 0 */
    PORT_REFUSED_NO_FACE = 6,          /* a pass of the search found nothing to compare */
    PORT_REFUSED_GRID_EDGE = 7,        /* the best point is on the edge of the search */
    PORT_REFUSED_OUT_OF_DOMAIN = 8,    /* the slice found is not one that may be used */
    PORT_REFUSED_RMSE = 9,             /* rmse_vol is above max_rmse_vol, or no number */
    PORT_REFUSED_BAD_OBSERVATION = 10, /* k, w or weight not finite, w below 0, or weight not above 0 */
    PORT_REFUSED_SIZE = 11,            /* over 256 quotes, 32 slices or 64 values on an axis; grid over 255, refinements or max_recentres over 1,000 */
    PORT_REFUSED_LENGTHS = 12,         /* columns of unequal length, or a buffer that is too short */
    PORT_REFUSED_K_RANGE = 21,         /* k range not finite, or lo above hi */
    PORT_REFUSED_NOT_FINITE = 22,      /* 22 to 28: the tests of a slice. A number of it is not finite */
    PORT_REFUSED_SLICE_TAU = 23,       /* tau not above 0 */
    PORT_REFUSED_B = 24,               /* b below 0 */
    PORT_REFUSED_RHO = 25,             /* rho beyond -1 or 1 */
    PORT_REFUSED_SIGMA = 26,           /* sigma not above 0 */
    PORT_REFUSED_LEE = 27,             /* b (1 + |rho|) above 2, Lee's bound */
    PORT_REFUSED_MINIMUM = 28,         /* smallest variance not finite and above 0 */
    PORT_REFUSED_EVAL_K = 29,          /* k not finite */
    PORT_REFUSED_EVAL = 30,            /* a value that is not finite */
    PORT_REFUSED_CURVATURE = 31,       /* curvature not above 0 where b is above 0 */
    PORT_REFUSED_TWO_SLICES = 32,      /* fewer than two slices */
    PORT_REFUSED_TAU_ORDER = 33,       /* the taus of the slices do not rise */
    PORT_REFUSED_POINT_K = 34,         /* the k asked for is not finite */
    PORT_REFUSED_POINT_TAU = 35,       /* the tau asked for is not finite and above 0 */
    PORT_REFUSED_BEFORE_FIRST = 36,    /* before the first slice, under PORT_REJECT */
    PORT_REFUSED_BEYOND_LAST = 37,     /* beyond the last slice */
    PORT_REFUSED_VARIANCE = 38,        /* total variance not finite and above 0 */
    PORT_REFUSED_DERIVATIVE = 39,      /* a derivative that is not finite */
    PORT_REFUSED_K_AXIS = 40,          /* the k axis is empty, or not of finite, rising numbers */
    PORT_REFUSED_TAU_AXIS = 41,        /* the tau axis is empty, or not of finite, rising numbers above 0 */
    PORT_REFUSED_TOLERANCE = 42,       /* a tolerance not finite, or below 0 */
    PORT_REFUSED_MALFORMED = 43,       /* the bytes are not a house file */
    PORT_REFUSED_TWO_CONTENTS = 44     /* one quote number with two contents: k, w or weight differ in a bit */
};

/* One quote as it came in. */
typedef struct {
    uint64_t number;   /* the quote's own, which it keeps when it is sent again; any 64 bits */
    double k;          /* ln(strike / forward) */
    double w;          /* total variance: vol x vol x tau */
    double weight;     /* in the least squares */
} PortQuote;

/* The range of k of a slice. */
typedef struct {
    double lo, hi;
} PortKRange;

/* A slice: w(k) = a + b (rho (k - m) + sqrt((k - m)^2 + sigma^2)); implied volatility is sqrt(w / tau). */
typedef struct {
    double tau, a, b, rho, m, sigma;
    PortKRange k_range;
} PortSviSlice;

/* The settings of the fit. */
typedef struct {
    uint64_t grid;                /* points an axis, 5 to 255 */
    uint64_t refinements;         /* at most 1,000 */
    uint64_t max_recentres;       /* at most 1,000 */
    double sigma_lo, sigma_hi;    /* ends of sigma, as parts of the span of k */
    double a_min;                 /* lower bound of a */
    uint64_t min_observations;    /* at least 5 */
    double max_rmse_vol;          /* largest root mean square residual that is accepted, in volatility */
    double pivot_tolerance;
    double feasibility_tolerance;
    double max_weight_ratio;      /* a weight above this many times the median counts as that much */
} PortFitConfig;

/* What the search did. updates is the solver's work: how many matrix entries its eliminations updated (port_solve says which count), at most 3,438 a cell. */
typedef struct {
    uint64_t passes, recentres, shrinks, cells, faces, updates;
} PortCounts;

/* The answer of a fit. Of a refusal every field is 0 but the number, the values that belong to it, and counts for 6 to 9. */
typedef struct {
    uint32_t number;              /* PORT_FITTED, or why not */
    uint64_t observed, required;  /* of PORT_REFUSED_TOO_FEW */
    double rmse_vol;              /* of a fit and of PORT_REFUSED_RMSE */
    double max_rmse_vol;          /* of PORT_REFUSED_RMSE */
    PortSviSlice slice;
    double objective, objective_params, lee_margin, a_margin;
    bool active[7];               /* flat slice, rho = 1, rho = -1, Lee's bound right and left, a at a_min, a at a_max */
    PortCounts counts;
    uint64_t capped;              /* how many positions were written to `capped` */
} PortFitAnswer;

/* The answer to quotes as they came in: how many were read, how many were kept once repeats were dropped, and the fit of those. */
typedef struct {
    uint64_t read, kept;          /* kept is read where the quotes are refused before repeats are dropped: 12, 11, 10, 44 */
    PortFitAnswer fit;
} PortQuotesAnswer;

typedef struct {
    uint32_t number;              /* 0 or 21 */
    PortKRange range;
} PortRangeAnswer;

typedef struct {
    uint32_t number;              /* 0 or 21 to 28 */
    PortSviSlice slice;
} PortSliceAnswer;

typedef struct {
    uint32_t number;              /* 0 or 21 to 28 */
    double value;
} PortLevelAnswer;

typedef struct {
    uint32_t number;              /* 0, 21 to 28, or 29 to 31 */
    double w, w_k, w_kk;
} PortValuesAnswer;

typedef struct {
    double w, w_k, w_kk, w_tau;
} PortTotalVariance;

typedef struct {
    uint32_t number;              /* 0 or a refusal of the point, or of what led to it */
    PortTotalVariance total;
} PortTotalAnswer;

/* What stands before the first tau of a surface, on the morning of an expiry for one. PORT_REJECT refuses with 36, and nothing else does: a refusal there is for
 * those who ask for it. PORT_CONSTANT_VOL answers with the first slice, scaled by tau over its tau; so does every number but 0. A field that was zeroed is
 * PORT_REJECT; port_default_policy() is the choice for those who have none, PORT_CONSTANT_VOL. */
#define PORT_REJECT 0
#define PORT_CONSTANT_VOL 1
uint32_t port_default_policy(void);

/* The slices that answer at a tau: positions lo and hi with the weight x of hi; or `below`, the first alone. */
typedef struct {
    uint32_t number;
    bool below;
    uint64_t lo, hi;
    double x;
} PortBracketAnswer;

/* Calibrated: between two slices whose k ranges both hold k. */
typedef struct {
    uint32_t number;
    bool calibrated;
} PortRegionAnswer;

typedef struct {
    uint32_t number;
    bool all;
} PortCoversAnswer;

typedef struct {
    double k, tau, value;         /* a gap stands at the earlier tau */
} PortDiagnosticPoint;

typedef struct {
    bool found;
    PortDiagnosticPoint at;
} PortWorst;

/* A running tally: the worst is the first smallest value, a violation a value below minus the tolerance. {0} is an empty one. */
typedef struct {
    uint64_t points, violations;
    PortWorst worst;
} PortCheck;

typedef struct {
    double butterfly_tolerance, calendar_tolerance; /* the Rust's defaults are 1e-10 and 1e-12 */
} PortDiagnosticsConfig;

typedef struct {
    PortCheck butterfly, calendar_slope, calendar_gap;
    uint64_t evaluation_failures;
} PortSurfaceDiagnostics;

typedef struct {
    uint32_t number;              /* 0, 12, 11, 21 to 28, 32, 33 or 40 to 42 */
    PortSurfaceDiagnostics report;
} PortDiagnosedAnswer;

/* What a fit fixes for all points of its search. */
typedef struct {
    double a_min, a_max, pivot_tolerance, feasibility_tolerance;
} PortLimits;

/* One point (m, sigma) of the search: whether a face qualifies, the best one's objective, (a, d, c) and constraints, the faces tried, and the matrix entries that
 * were updated to try them. */
typedef struct {
    bool some;
    double objective;
    double x[3];
    bool active[7];
    uint64_t faces, updates;
} PortCell;

/* ---- what the library exports, beside those below whose name has no raw_: numbers and pointers only. For other languages; C programs take the functions
 * over records further below. A number is returned (0, or the refusal; 1 or 0 where the question is yes or no). The rows at the end of a parameter
 * list are the answer's own and are always written: a refusal puts zeros there but for the values that belong to it. */

/* sizes: grid, refinements, max_recentres, min_observations. reals: sigma_lo, sigma_hi, a_min, max_rmse_vol, pivot_tolerance, feasibility_tolerance, max_weight_ratio. */
void port_raw_default_config(uint64_t sizes[4], double reals[7]);

/* counts: observed, required, passes, recentres, shrinks, cells, faces, updates, capped.
 * values: rmse_vol, max_rmse_vol, tau, a, b, rho, m, sigma, k_range.lo, k_range.hi, objective, objective_params, lee_margin, a_margin. */
uint32_t port_raw_fit_slice(double tau, const uint64_t sizes[4], const double reals[7], const double *k, uint64_t k_count, const double *w, uint64_t w_count,
                            const double *weight, uint64_t weight_count, double *residuals, uint64_t residuals_count, uint64_t *capped, uint64_t capped_count,
                            uint64_t counts[9], double values[14], bool active[7]);

/* quotes: 32 bytes each, as in a house file (number, then the bits of k, w and weight, the low byte first); a length that is no multiple of 32 is refused with 12.
 * counts: read, kept, then the nine of port_raw_fit_slice. */
uint32_t port_raw_fit_quotes(double tau, const uint64_t sizes[4], const double reals[7], const uint8_t *quotes, uint64_t quotes_count,
                             double *residuals, uint64_t residuals_count, uint64_t *capped, uint64_t capped_count,
                             uint64_t counts[11], double values[14], bool active[7]);

/* A slice is a row: tau, a, b, rho, m, sigma, k_range.lo, k_range.hi. Where many are lent, they are records, one after the other. */
uint32_t port_raw_k_range(double lo, double hi, double range[2]);
uint32_t port_raw_contains(const double range[2], double k);
uint32_t port_raw_slice(double tau, double a, double b, double rho, double m, double sigma, const double range[2], double slice[8]);
uint32_t port_raw_minimum(const double slice[8], double value[1]);
uint32_t port_raw_lee_slope(const double slice[8], double value[1]);
uint32_t port_raw_eval(const double slice[8], double k, double values[3]);
uint32_t port_raw_total(double w, double w_k, double w_kk, double w_tau, double total[4]);

/* places: below (1 or 0), lo, hi. */
uint32_t port_raw_bracket(const PortSviSlice *slices, uint64_t count, uint32_t policy, double k, double tau, uint64_t places[3], double x[1]);
uint32_t port_raw_region(const PortSviSlice *slices, uint64_t count, uint32_t policy, double k, double tau, uint64_t calibrated[1]);
uint32_t port_raw_total_variance(const PortSviSlice *slices, uint64_t count, uint32_t policy, double k, double tau, double total[4]);
uint32_t port_raw_covers_nodes(const PortSviSlice *slices, uint64_t count, const double *ks, uint64_t k_count, const double *taus, uint64_t tau_count, uint64_t all[1]);

/* counts: points, violations and found (1 or 0) of butterfly, calendar_slope and calendar_gap, then evaluation_failures. worst: k, tau and value of each. */
uint32_t port_raw_diagnose(const PortSviSlice *slices, uint64_t count, uint32_t policy, const double *ks, uint64_t k_count, const double *taus, uint64_t tau_count,
                           double butterfly_tolerance, double calendar_tolerance, double *room, uint64_t room_count, uint64_t counts[10], double worst[9]);
void port_raw_check_record(PortCheck *check, double k, double tau, double value, double tolerance);
uint32_t port_raw_check_clean(const uint64_t counts[3], const double worst[3]);
uint32_t port_raw_report_clean(const uint64_t counts[10], const double worst[9]);

/* limits: a_min, a_max, pivot_tolerance, feasibility_tolerance. counts: faces, updates. values: objective, then the three of x. */
uint32_t port_raw_solve(const double m[36], const double rhs[6], uint64_t n, double tol, double x[6], uint64_t updates[1]);
uint32_t port_raw_cell(const double *k, uint64_t k_count, const double *w, uint64_t w_count, const double *scaled, uint64_t scaled_count,
                       const double limits[4], double m, double sigma, uint64_t counts[2], double values[4], bool active[7]);

/* ---- the packing: records to rows and back */

static inline void port_pack_config(PortFitConfig c, uint64_t sizes[4], double reals[7])
{
    sizes[0] = c.grid, sizes[1] = c.refinements, sizes[2] = c.max_recentres, sizes[3] = c.min_observations;
    reals[0] = c.sigma_lo, reals[1] = c.sigma_hi, reals[2] = c.a_min, reals[3] = c.max_rmse_vol;
    reals[4] = c.pivot_tolerance, reals[5] = c.feasibility_tolerance, reals[6] = c.max_weight_ratio;
}

static inline void port_pack_slice(PortSviSlice s, double row[8])
{
    row[0] = s.tau, row[1] = s.a, row[2] = s.b, row[3] = s.rho, row[4] = s.m, row[5] = s.sigma, row[6] = s.k_range.lo, row[7] = s.k_range.hi;
}

static inline PortSviSlice port_unpack_slice(const double row[8])
{
    PortSviSlice s;
    s.tau = row[0], s.a = row[1], s.b = row[2], s.rho = row[3], s.m = row[4], s.sigma = row[5], s.k_range.lo = row[6], s.k_range.hi = row[7];
    return s;
}

static inline void port_unpack_fit(PortFitAnswer *a, uint32_t number, const uint64_t counts[9], const double values[14])
{
    a->number = number;
    a->observed = counts[0], a->required = counts[1];
    a->counts.passes = counts[2], a->counts.recentres = counts[3], a->counts.shrinks = counts[4];
    a->counts.cells = counts[5], a->counts.faces = counts[6], a->counts.updates = counts[7];
    a->capped = counts[8];
    a->rmse_vol = values[0], a->max_rmse_vol = values[1];
    a->slice = port_unpack_slice(values + 2);
    a->objective = values[10], a->objective_params = values[11], a->lee_margin = values[12], a->a_margin = values[13];
}

static inline PortTotalVariance port_unpack_total(const double row[4])
{
    PortTotalVariance t;
    t.w = row[0], t.w_k = row[1], t.w_kk = row[2], t.w_tau = row[3];
    return t;
}

static inline void port_pack_check(PortCheck c, uint64_t counts[3], double worst[3])
{
    counts[0] = c.points, counts[1] = c.violations, counts[2] = c.worst.found;
    worst[0] = c.worst.at.k, worst[1] = c.worst.at.tau, worst[2] = c.worst.at.value;
}

static inline PortCheck port_unpack_check(const uint64_t counts[3], const double worst[3])
{
    PortCheck c;
    c.points = counts[0], c.violations = counts[1], c.worst.found = counts[2] != 0;
    c.worst.at.k = worst[0], c.worst.at.tau = worst[1], c.worst.at.value = worst[2];
    return c;
}

/* ---- the fit */

/* The settings of document 01. */
static inline PortFitConfig port_default_config(void)
{
    PortFitConfig c;
    uint64_t sizes[4];
    double reals[7];
    port_raw_default_config(sizes, reals);
    c.grid = sizes[0], c.refinements = sizes[1], c.max_recentres = sizes[2], c.min_observations = sizes[3];
    c.sigma_lo = reals[0], c.sigma_hi = reals[1], c.a_min = reals[2], c.max_rmse_vol = reals[3];
    c.pivot_tolerance = reals[4], c.feasibility_tolerance = reals[5], c.max_weight_ratio = reals[6];
    return c;
}

/* THE CALL TO START WITH: fits quotes as they came in. Repeats are dropped, as the program drops them from a file; then the rest is fitted. A repeat has an earlier
 * quote's number and its k, w and weight, bit for bit (+0 and -0 differ). The number tells a retry from a second quote: what two dealers quote alike comes under
 * two numbers, and both count. SO EACH QUOTE NEEDS A NUMBER OF ITS OWN: one number with two contents is refused with 44, after 12, 11 and 10, before a repeat is dropped.
 * An accepted fit writes four numbers for each quote kept to `residuals` (k, w, fitted w, quoted minus fitted volatility), in order, and the positions among
 * those kept whose weight was capped, rising, to `capped`. It wants room for 4 x count and count, whatever is kept. With the default settings it tries at most
 * 2,624,832 faces and updates at most 141,002,694 matrix entries, which is a second or so; the largest settings allow 4,758 times as many, so look at the settings
 * that you pass on from others. */
static inline PortQuotesAnswer port_fit_quotes(double tau, PortFitConfig config, const PortQuote *quotes, size_t count,
                                               double *residuals, size_t residuals_count, uint64_t *capped, size_t capped_count)
{
#if defined(__BYTE_ORDER__) && __BYTE_ORDER__ != __ORDER_LITTLE_ENDIAN__
#error "PortQuote is handed over as it lies in memory, the low byte first"
#endif
    PortQuotesAnswer a;
    uint64_t sizes[4], counts[11], most = UINT64_MAX / 32;
    double reals[7], values[14];
    port_pack_config(config, sizes, reals);
    uint32_t number = port_raw_fit_quotes(tau, sizes, reals, (const uint8_t *)quotes, (count < most ? count : most) * 32,
                                          residuals, residuals_count, capped, capped_count, counts, values, a.fit.active);
    a.read = counts[0], a.kept = counts[1];
    port_unpack_fit(&a.fit, number, counts + 2, values);
    return a;
}

/* Fits n quotes given as three columns, and writes what port_fit_quotes writes. It fits what it is given: columns have no numbers, so NO REPEAT IS DROPPED HERE. */
static inline PortFitAnswer port_fit_slice(double tau, PortFitConfig config, const double *k, size_t k_count, const double *w, size_t w_count,
                                           const double *weight, size_t weight_count, double *residuals, size_t residuals_count,
                                           uint64_t *capped, size_t capped_count)
{
    PortFitAnswer a;
    uint64_t sizes[4], counts[9];
    double reals[7], values[14];
    port_pack_config(config, sizes, reals);
    uint32_t number = port_raw_fit_slice(tau, sizes, reals, k, k_count, w, w_count, weight, weight_count, residuals, residuals_count, capped, capped_count,
                                         counts, values, a.active);
    port_unpack_fit(&a, number, counts, values);
    return a;
}

/* Answers a house file as the program prints it: repeats are dropped and clashes refused (44) as by port_fit_quotes, then the rest is fitted. Returns the length of
 * the whole answer, and writes it where the room is at least that; else nothing is written. PORT_MOST_ANSWER bytes are room for every answer (proved). */
#define PORT_MOST_ANSWER 32768
uint64_t port_run(const uint8_t *file, uint64_t file_count, uint8_t *out, uint64_t out_count);

/* ---- one slice. A slice handed over is tested first: 21, then 22 to 28. */

static inline PortRangeAnswer port_k_range(double lo, double hi)
{
    PortRangeAnswer a;
    double range[2];
    a.number = port_raw_k_range(lo, hi, range);
    a.range.lo = range[0], a.range.hi = range[1];
    return a;
}

/* Whether a range holds k. */
static inline bool port_contains(PortKRange range, double k)
{
    double row[2];
    row[0] = range.lo, row[1] = range.hi;
    return port_raw_contains(row, k) != 0;
}

static inline PortSliceAnswer port_slice(double tau, double a, double b, double rho, double m, double sigma, PortKRange range)
{
    PortSliceAnswer made;
    double row[2], slice[8];
    row[0] = range.lo, row[1] = range.hi;
    made.number = port_raw_slice(tau, a, b, rho, m, sigma, row, slice);
    made.slice = port_unpack_slice(slice);
    return made;
}

/* The smallest total variance. */
static inline PortLevelAnswer port_minimum(PortSviSlice slice)
{
    PortLevelAnswer a;
    double row[8];
    port_pack_slice(slice, row);
    a.number = port_raw_minimum(row, &a.value);
    return a;
}

/* b (1 + |rho|). */
static inline PortLevelAnswer port_lee_slope(PortSviSlice slice)
{
    PortLevelAnswer a;
    double row[8];
    port_pack_slice(slice, row);
    a.number = port_raw_lee_slope(row, &a.value);
    return a;
}

/* w, dw/dk and d2w/dk2. */
static inline PortValuesAnswer port_eval(PortSviSlice slice, double k)
{
    PortValuesAnswer a;
    double row[8], values[3];
    port_pack_slice(slice, row);
    a.number = port_raw_eval(row, k, values);
    a.w = values[0], a.w_k = values[1], a.w_kk = values[2];
    return a;
}

/* ---- one point */

uint32_t port_check_point(double k, double tau); /* 0, 34 or 35 */

/* 0, 38 or 39. */
static inline PortTotalAnswer port_total(double w, double w_k, double w_kk, double w_tau)
{
    PortTotalAnswer a;
    double total[4];
    a.number = port_raw_total(w, w_k, w_kk, w_tau, total);
    a.total = port_unpack_total(total);
    return a;
}

/* ---- a surface: 2 to 32 slices with rising tau, lent for the call. Each call tests it: 11, 21 to 28 for each slice, 32, 33; then the axes and
 * tolerances, 40 to 42; then the points. */

uint32_t port_surface(const PortSviSlice *slices, uint64_t count); /* 0, 11, 21 to 28, 32 or 33 */

static inline PortBracketAnswer port_bracket(const PortSviSlice *slices, size_t count, uint32_t policy, double k, double tau)
{
    PortBracketAnswer a;
    uint64_t places[3];
    a.number = port_raw_bracket(slices, count, policy, k, tau, places, &a.x);
    a.below = places[0] != 0, a.lo = places[1], a.hi = places[2];
    return a;
}

static inline PortRegionAnswer port_region(const PortSviSlice *slices, size_t count, uint32_t policy, double k, double tau)
{
    PortRegionAnswer a;
    uint64_t calibrated;
    a.number = port_raw_region(slices, count, policy, k, tau, &calibrated);
    a.calibrated = calibrated != 0;
    return a;
}

static inline PortTotalAnswer port_total_variance(const PortSviSlice *slices, size_t count, uint32_t policy, double k, double tau)
{
    PortTotalAnswer a;
    double total[4];
    a.number = port_raw_total_variance(slices, count, policy, k, tau, total);
    a.total = port_unpack_total(total);
    return a;
}

/* Whether the tau axis of a grid holds the tau of every slice. */
static inline PortCoversAnswer port_covers_nodes(const PortSviSlice *slices, size_t count, const double *ks, size_t k_count, const double *taus, size_t tau_count)
{
    PortCoversAnswer a;
    uint64_t all;
    a.number = port_raw_covers_nodes(slices, count, ks, k_count, taus, tau_count, &all);
    a.all = all != 0;
    return a;
}

/* ---- arbitrage on a grid */

/* Walks the grid, k outside and tau inside. Each failure writes three numbers to `room` (k, tau, its refusal), in walking order; it wants room for
 * three times every grid point. */
static inline PortDiagnosedAnswer port_diagnose(const PortSviSlice *slices, size_t count, uint32_t policy, const double *ks, size_t k_count,
                                                const double *taus, size_t tau_count, PortDiagnosticsConfig config, double *room, size_t room_count)
{
    PortDiagnosedAnswer a;
    uint64_t counts[10];
    double worst[9];
    a.number = port_raw_diagnose(slices, count, policy, ks, k_count, taus, tau_count, config.butterfly_tolerance, config.calendar_tolerance,
                                 room, room_count, counts, worst);
    a.report.butterfly = port_unpack_check(counts, worst);
    a.report.calendar_slope = port_unpack_check(counts + 3, worst + 3);
    a.report.calendar_gap = port_unpack_check(counts + 6, worst + 6);
    a.report.evaluation_failures = counts[9];
    return a;
}

static inline void port_check_record(PortCheck *check, PortDiagnosticPoint point, double tolerance)
{
    port_raw_check_record(check, point.k, point.tau, point.value, tolerance);
}

/* No violation. */
static inline bool port_check_clean(PortCheck check)
{
    uint64_t counts[3];
    double worst[3];
    port_pack_check(check, counts, worst);
    return port_raw_check_clean(counts, worst) != 0;
}

/* No violation and no failure. */
static inline bool port_report_clean(PortSurfaceDiagnostics report)
{
    uint64_t counts[10];
    double worst[9];
    port_pack_check(report.butterfly, counts, worst);
    port_pack_check(report.calendar_slope, counts + 3, worst + 3);
    port_pack_check(report.calendar_gap, counts + 6, worst + 6);
    counts[9] = report.evaluation_failures;
    return port_raw_report_clean(counts, worst) != 0;
}

/* ---- inside the fit, for those who compare */

/* Solves m x = rhs in n unknowns, 1 to 6: the first n rows and columns of a 6 by 6 matrix, row by row. Where it says false x is six zeros.
 * updates[0] is always written, as x is: how many entries of the matrix the elimination updated. A row below a pivot whose factor is not 0 counts its entries from the
 * pivot's column on, that column included and the right side not: at most n (n n - 1) / 3, which is 8, 20, 40 and 70 for n from 3 to 6. Where it says false, what was
 * updated before counts; that is 0 where n is 0 or above 6, and where the largest magnitude in the matrix, NaN passed over, is 0 or infinite. */
static inline bool port_solve(const double m[36], const double rhs[6], size_t n, double tol, double x[6], uint64_t updates[1])
{
    return port_raw_solve(m, rhs, n, tol, x, updates) != 0;
}

/* Over at most 256 quotes, three columns of one length; else nothing qualifies and no face is tried. updates is the sum over the faces tried: at most 8 where the
 * first is enough, else 3,438. */
static inline PortCell port_cell(const double *k, size_t k_count, const double *w, size_t w_count, const double *scaled, size_t scaled_count,
                                 PortLimits limits, double m, double sigma)
{
    PortCell c;
    uint64_t counts[2];
    double row[4], values[4];
    row[0] = limits.a_min, row[1] = limits.a_max, row[2] = limits.pivot_tolerance, row[3] = limits.feasibility_tolerance;
    c.some = port_raw_cell(k, k_count, w, w_count, scaled, scaled_count, row, m, sigma, counts, values, c.active) != 0;
    c.faces = counts[0], c.updates = counts[1];
    c.objective = values[0], c.x[0] = values[1], c.x[1] = values[2], c.x[2] = values[3];
    return c;
}

/* ---- elementary functions, as the fit rounds them */

double port_sqrt(double x);
double port_hypot(double x, double y);
double port_ln(double x);
double port_exp(double x);

#ifdef __cplusplus
}
#endif

#endif
