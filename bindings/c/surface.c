/* Slices, points, surfaces and diagnostics from C, and the two calls inside the fit: good and bad input. Its last line is 'N passed, M failed'. */
#define _DEFAULT_SOURCE
#include "kesupayro.h"

#include "expect.h"
#include "small_stack.h"
#include <math.h>
#include <string.h>

static const PortKRange wide = {-1, 1};

/* The worked example: a 0.25, b 0.5, rho 0, m 0, sigma 3 has w 1.75 at 0 and 2.75 at 4. */
static PortSviSlice slice_at(double tau)
{
    PortSviSlice s = {tau, 0.25, 0.5, 0, 0, 3, wide};
    return s;
}

static void layouts(void)
{
    EXPECT(sizeof(PortRangeAnswer) == 24 && sizeof(PortSliceAnswer) == 72 && sizeof(PortLevelAnswer) == 16 && sizeof(PortValuesAnswer) == 32);
    EXPECT(sizeof(PortTotalAnswer) == 40 && sizeof(PortBracketAnswer) == 32 && sizeof(PortRegionAnswer) == 8 && sizeof(PortCoversAnswer) == 8);
    EXPECT(sizeof(PortCheck) == 48 && sizeof(PortSurfaceDiagnostics) == 152 && sizeof(PortDiagnosedAnswer) == 160 && sizeof(PortCell) == 64);
    EXPECT(offsetof(PortCell, active) == 40 && offsetof(PortCell, faces) == 48 && offsetof(PortCell, updates) == 56);
}

static void ranges(void)
{
    PortRangeAnswer r = port_k_range(-1, 2);
    EXPECT(r.number == 0 && r.range.lo == -1 && r.range.hi == 2);
    EXPECT(port_k_range(2, 2).number == 0 && port_k_range(2, 1).number == PORT_REFUSED_K_RANGE && port_k_range(NAN, 1).number == PORT_REFUSED_K_RANGE);
    r = port_k_range(0, INFINITY);
    EXPECT(r.number == PORT_REFUSED_K_RANGE && r.range.lo == 0 && r.range.hi == 0);
    EXPECT(port_contains(wide, 1) && port_contains(wide, -1) && !port_contains(wide, 1.5) && !port_contains(wide, NAN));
}

/* The same slice with one number changed, through every call that takes a slice. */
static int slice_refused(PortSviSlice s, uint32_t number)
{
    PortSliceAnswer made = port_slice(s.tau, s.a, s.b, s.rho, s.m, s.sigma, s.k_range);
    PortSviSlice two[2] = {slice_at(1), s};
    return made.number == number && made.slice.tau == 0 && made.slice.k_range.hi == 0 && port_minimum(s).number == number &&
           port_lee_slope(s).number == number && port_eval(s, 0).number == number && port_surface(two, 2) == number;
}

static void slices(void)
{
    PortSviSlice s = slice_at(1);
    PortSliceAnswer made = port_slice(1, 0.25, 0.5, 0, 0, 3, wide);
    EXPECT(made.number == 0 && memcmp(&made.slice, &s, sizeof s) == 0);
    EXPECT(port_minimum(s).number == 0 && port_minimum(s).value == 1.75);
    EXPECT(port_lee_slope(s).number == 0 && port_lee_slope(s).value == 0.5);
    PortValuesAnswer v = port_eval(s, 4);
    EXPECT(v.number == 0 && v.w == 2.75 && fabs(v.w_k - 0.4) < 1e-15 && v.w_kk > 0);
    EXPECT(port_eval(s, 0).w == 1.75 && port_eval(s, 0).w_k == 0);
    EXPECT(port_eval(s, NAN).number == PORT_REFUSED_EVAL_K && port_eval(s, INFINITY).number == PORT_REFUSED_EVAL_K);
    s.a = NAN;
    EXPECT(slice_refused(s, PORT_REFUSED_NOT_FINITE));
    s = slice_at(0);
    EXPECT(slice_refused(s, PORT_REFUSED_SLICE_TAU));
    s = slice_at(2), s.b = -0.5;
    EXPECT(slice_refused(s, PORT_REFUSED_B));
    s = slice_at(2), s.rho = 1.25;
    EXPECT(slice_refused(s, PORT_REFUSED_RHO));
    s = slice_at(2), s.sigma = 0;
    EXPECT(slice_refused(s, PORT_REFUSED_SIGMA));
    s = slice_at(2), s.b = 1.5, s.rho = 0.5;
    EXPECT(slice_refused(s, PORT_REFUSED_LEE));
    s = slice_at(2), s.a = -1.5;
    EXPECT(slice_refused(s, PORT_REFUSED_MINIMUM));
    s = slice_at(2), s.k_range.lo = 2;
    EXPECT(port_minimum(s).number == PORT_REFUSED_K_RANGE && port_eval(s, 0).number == PORT_REFUSED_K_RANGE && port_eval(s, 0).w == 0);
    s = slice_at(2), s.b = 1, s.rho = 1;
    EXPECT(port_eval(s, 1.7e308).number == PORT_REFUSED_EVAL);
    s = slice_at(2), s.sigma = 1e-200;
    EXPECT(port_eval(s, 1).number == PORT_REFUSED_CURVATURE);
}

static void points(void)
{
    EXPECT(port_check_point(0, 1) == 0 && port_check_point(NAN, NAN) == PORT_REFUSED_POINT_K && port_check_point(0, 0) == PORT_REFUSED_POINT_TAU);
    PortTotalAnswer t = port_total(1, 2, 3, 4);
    EXPECT(t.number == 0 && t.total.w == 1 && t.total.w_k == 2 && t.total.w_kk == 3 && t.total.w_tau == 4);
    EXPECT(port_total(0, NAN, 0, 0).number == PORT_REFUSED_VARIANCE && port_total(1, 0, INFINITY, 0).number == PORT_REFUSED_DERIVATIVE);
}

static void surfaces(void)
{
    PortSviSlice s[33];
    for (int i = 0; i < 33; i++)
        s[i] = slice_at(1 + i), s[i].a = 0.25 + i;
    EXPECT(port_surface(s, 32) == 0 && port_surface(s, 33) == PORT_REFUSED_SIZE && port_surface(s, 1) == PORT_REFUSED_TWO_SLICES && port_surface(s, 0) == PORT_REFUSED_TWO_SLICES);

    /* taus 1, 2, 4 at 2: the segment 0 to 1 at its end */
    PortSviSlice three[3] = {s[0], s[1], s[3]};
    PortBracketAnswer b = port_bracket(three, 3, PORT_REJECT, 0, 2);
    EXPECT(b.number == 0 && !b.below && b.lo == 0 && b.hi == 1 && b.x == 1);
    b = port_bracket(three, 3, PORT_REJECT, 0, 1);
    EXPECT(b.number == 0 && b.lo == 0 && b.hi == 1 && b.x == 0);
    b = port_bracket(s, 2, PORT_REJECT, 0, 1.5);
    EXPECT(b.number == 0 && b.lo == 0 && b.hi == 1 && b.x == 0.5);
    EXPECT(port_bracket(s, 2, PORT_REJECT, 0, 2.5).number == PORT_REFUSED_BEYOND_LAST);
    b = port_bracket(s, 2, PORT_REJECT, 0, 0.5);
    EXPECT(b.number == PORT_REFUSED_BEFORE_FIRST && !b.below && b.lo == 0 && b.hi == 0 && b.x == 0);
    b = port_bracket(s, 2, PORT_CONSTANT_VOL, 0, 0.5);
    EXPECT(b.number == 0 && b.below);
    EXPECT(port_bracket(s, 2, PORT_REJECT, NAN, 1).number == PORT_REFUSED_POINT_K && port_bracket(s, 2, PORT_REJECT, 0, NAN).number == PORT_REFUSED_POINT_TAU);

    EXPECT(port_region(s, 2, PORT_REJECT, 0.5, 1.5).calibrated && !port_region(s, 2, PORT_REJECT, 1.5, 1.5).calibrated);
    EXPECT(!port_region(s, 2, PORT_CONSTANT_VOL, 0, 0.5).calibrated && port_region(s, 2, PORT_REJECT, 0, 0.5).number == PORT_REFUSED_BEFORE_FIRST);

    PortTotalAnswer t = port_total_variance(s, 2, PORT_REJECT, 0, 1.5);
    EXPECT(t.number == 0 && t.total.w == 2.25 && t.total.w_k == 0 && t.total.w_kk > 0 && t.total.w_tau == 1);
    t = port_total_variance(s, 2, PORT_CONSTANT_VOL, 0, 0.5);
    EXPECT(t.number == 0 && t.total.w == 0.875 && t.total.w_tau == 1.75);
    EXPECT(port_total_variance(s, 2, PORT_REJECT, 0, 3).number == PORT_REFUSED_BEYOND_LAST);

    double ks[65], taus[65];
    for (int i = 0; i < 65; i++)
        ks[i] = -1 + i / 32.0, taus[i] = 1 + i;
    EXPECT(port_covers_nodes(three, 3, ks, 64, taus, 4).all && port_covers_nodes(three, 3, ks, 64, taus, 4).number == 0);
    EXPECT(!port_covers_nodes(three, 3, ks, 64, taus, 3).all && port_covers_nodes(three, 3, ks, 64, taus, 3).number == 0);
    EXPECT(port_covers_nodes(three, 3, ks, 65, taus, 4).number == PORT_REFUSED_SIZE);
    EXPECT(port_covers_nodes(three, 3, ks, 0, taus, 4).number == PORT_REFUSED_K_AXIS && port_covers_nodes(three, 3, ks, 2, taus, 0).number == PORT_REFUSED_TAU_AXIS);

    s[1].tau = 1;
    EXPECT(port_surface(s, 2) == PORT_REFUSED_TAU_ORDER && port_bracket(s, 2, PORT_REJECT, NAN, NAN).number == PORT_REFUSED_TAU_ORDER);
}

/* Before the first tau PORT_REJECT alone refuses; every other number, and so the default, is PORT_CONSTANT_VOL. */
static void policies(void)
{
    static const uint32_t policies[] = {PORT_REJECT, PORT_CONSTANT_VOL, 2, 7, 256, 0x80000000u, UINT32_MAX};
    PortSviSlice s[2] = {slice_at(1), slice_at(2)};
    PortDiagnosticsConfig config = {1e-10, 1e-12};
    double ks[1] = {0}, taus[2] = {0.5, 1};
    s[1].a = 1.25;
    for (size_t i = 0; i < sizeof policies / sizeof *policies; i++) {
        uint32_t policy = policies[i], want = i == 0 ? PORT_REFUSED_BEFORE_FIRST : 0;
        double room[6] = {-77, -77, -77, -77, -77, -77};
        PortBracketAnswer b = port_bracket(s, 2, policy, 0, 0.5);
        EXPECT(b.number == want && b.below == !want && b.lo == 0 && b.hi == 0 && b.x == 0);
        PortRegionAnswer g = port_region(s, 2, policy, 0, 0.5);
        EXPECT(g.number == want && !g.calibrated);
        PortTotalAnswer t = port_total_variance(s, 2, policy, 0, 0.5);
        EXPECT(t.number == want && t.total.w == (want ? 0 : 0.875) && t.total.w_tau == (want ? 0 : 1.75));
        PortDiagnosedAnswer d = port_diagnose(s, 2, policy, ks, 1, taus, 2, config, room, 6);
        EXPECT(d.number == 0 && d.report.evaluation_failures == (want ? 1 : 0) && d.report.calendar_gap.points == (want ? 0 : 1));
        EXPECT(want ? room[0] == 0 && room[1] == 0.5 && room[2] == PORT_REFUSED_BEFORE_FIRST : room[0] == -77);
        EXPECT(room[3] == -77);
    }
    EXPECT(port_default_policy() == PORT_CONSTANT_VOL);
    /* a program that keeps its choice in a struct of its own, and zeroed that */
    struct { uint32_t policy; } zeroed = {0};
    EXPECT(port_bracket(s, 2, zeroed.policy, 0, 0.5).number == PORT_REFUSED_BEFORE_FIRST);
}

static void diagnostics(void)
{
    enum { NK = 3, NT = 4, ROOM = 3 * NK * NT };
    PortSviSlice s[2] = {slice_at(1), slice_at(2)};
    PortDiagnosticsConfig config = {1e-10, 1e-12};
    double ks[NK] = {-1, 0, 1}, taus[NT] = {1, 1.5, 2, 3}, room[ROOM + 1];
    for (int i = 0; i <= ROOM; i++)
        room[i] = -77;
    s[1].a = 1.25;
    PortDiagnosedAnswer d = port_diagnose(s, 2, PORT_REJECT, ks, NK, taus, 3, config, room, ROOM);
    EXPECT(d.number == 0 && d.report.butterfly.points == 9 && d.report.calendar_slope.points == 9 && d.report.calendar_gap.points == 6);
    EXPECT(port_report_clean(d.report) && d.report.evaluation_failures == 0 && room[0] == -77);
    d = port_diagnose(s, 2, PORT_REJECT, ks, NK, taus, NT, config, room, ROOM);
    EXPECT(d.number == 0 && d.report.evaluation_failures == 3 && !port_report_clean(d.report) && port_check_clean(d.report.butterfly));
    EXPECT(room[0] == -1 && room[1] == 3 && room[2] == PORT_REFUSED_BEYOND_LAST && room[8] == PORT_REFUSED_BEYOND_LAST && room[9] == -77);
    s[1].a = 0.125;
    d = port_diagnose(s, 2, PORT_REJECT, ks, NK, taus, 3, config, room, ROOM);
    EXPECT(d.number == 0 && d.report.calendar_gap.violations == 6 && !port_check_clean(d.report.calendar_gap));
    EXPECT(d.report.calendar_gap.worst.found && d.report.calendar_gap.worst.at.k == -1 && d.report.calendar_gap.worst.at.tau == 1);

    room[0] = -77;
    d = port_diagnose(s, 2, PORT_REJECT, ks, NK, taus, NT, config, room, ROOM - 1);
    EXPECT(d.number == PORT_REFUSED_LENGTHS && d.report.butterfly.points == 0 && room[0] == -77);
    EXPECT(port_diagnose(s, 1, PORT_REJECT, ks, NK, taus, NT, config, room, ROOM).number == PORT_REFUSED_TWO_SLICES);
    EXPECT(port_diagnose(s, 2, PORT_REJECT, ks, 0, taus, NT, config, room, ROOM).number == PORT_REFUSED_K_AXIS);
    taus[3] = 2;
    EXPECT(port_diagnose(s, 2, PORT_REJECT, ks, NK, taus, NT, config, room, ROOM).number == PORT_REFUSED_TAU_AXIS);
    config.calendar_tolerance = NAN;
    EXPECT(port_diagnose(s, 2, PORT_REJECT, ks, NK, taus, 3, config, room, ROOM).number == PORT_REFUSED_TOLERANCE && room[0] == -77);

    PortCheck check;
    memset(&check, 0, sizeof check);
    PortDiagnosticPoint p = {0, 1, 0.5}, low = {1, 1, -0.25};
    port_check_record(&check, p, 0.1);
    EXPECT(check.points == 1 && check.violations == 0 && check.worst.found && check.worst.at.value == 0.5 && port_check_clean(check));
    port_check_record(&check, low, 0.1);
    EXPECT(check.points == 2 && check.violations == 1 && check.worst.at.k == 1 && !port_check_clean(check));
}

/* A system of n unknowns is solved, or refused, after so many updates of entries; the right side has no part in them. */
static int counted(const double m[36], size_t n, bool solved, uint64_t updates)
{
    static const double rhs[2][6] = {{1, 2, 3, 4, 5, 6}, {0}};
    int good = 1;
    for (int i = 0; i < 2; i++) {
        double x[6];
        uint64_t found = 7777;
        good &= port_solve(m, rhs[i], n, 1e-12, x, &found) == solved && found == updates;
    }
    return good;
}

/* How often the elimination updates an entry of the matrix. */
static void updates(void)
{
    double unit[36], dense[36], same[36], m[36];
    for (int i = 0; i < 36; i++)
        unit[i] = i % 7 == 0, dense[i] = i % 7 == 0 ? 8 : 1, same[i] = 1;
    /* every factor is 0; none is: n (n n - 1) / 3 */
    static const uint64_t most[] = {0, 0, 2, 8, 20, 40, 70};
    for (size_t n = 1; n <= 6; n++)
        EXPECT(counted(unit, n, true, 0) && counted(dense, n, true, most[n]));
    EXPECT(counted(dense, 0, false, 0) && counted(dense, 7, false, 0) && counted(dense, SIZE_MAX, false, 0));
    /* a row whose factor is 0, or -0, is passed over: the last one alone is worked on, three entries and then two */
    memcpy(m, dense, sizeof m), m[6] = 0;
    EXPECT(counted(m, 3, true, 5));
    m[6] = -0.0;
    EXPECT(counted(m, 3, true, 5));
    /* the row that comes up as the pivot is not below it: the other two are worked on, then one of them */
    memcpy(m, dense, sizeof m), m[12] = 16;
    EXPECT(counted(m, 3, true, 8));
    /* no pivot in the second column: what was updated in the first counts */
    for (size_t n = 2; n <= 6; n++)
        EXPECT(counted(same, n, false, n * (n - 1)));
    /* no pivot in the first column; none in the last, its row being the sum of the others, or a copy of the first, which the first column clears */
    memcpy(m, dense, sizeof m), m[0] = m[6] = m[12] = 0;
    EXPECT(counted(m, 3, false, 0));
    memcpy(m, dense, sizeof m), m[12] = m[13] = 9, m[14] = 2;
    EXPECT(counted(m, 3, false, 8));
    memcpy(m, dense, sizeof m), m[12] = 8, m[13] = m[14] = 1;
    EXPECT(counted(m, 3, false, 6));
    /* refused for its scale: nothing is begun */
    memset(m, 0, sizeof m);
    EXPECT(counted(m, 6, false, 0));
    m[8] = INFINITY;
    EXPECT(counted(m, 6, false, 0));
    for (int i = 0; i < 36; i++)
        m[i] = NAN;
    EXPECT(counted(m, 6, false, 0));
    /* a NaN is a pivot like another, and every row below it is worked on; the system is refused at its end */
    memcpy(m, dense, sizeof m), m[0] = NAN;
    EXPECT(counted(m, 3, false, 8) && counted(m, 6, false, 70));
}

static void inside(void)
{
    double m[36] = {0}, rhs[6] = {2, 8, 8, 0, 0, 0}, x[6];
    uint64_t updated;
    m[0] = 2, m[7] = 4, m[14] = 8;
    EXPECT(port_solve(m, rhs, 3, 1e-12, x, &updated) && x[0] == 1 && x[1] == 2 && x[2] == 1 && x[3] == 0 && updated == 0);
    EXPECT(!port_solve(m, rhs, 4, 1e-12, x, &updated) && x[0] == 0);
    EXPECT(!port_solve(m, rhs, 0, 1e-12, x, &updated) && !port_solve(m, rhs, 7, 1e-12, x, &updated));

    double k[9], w[9], scaled[9];
    for (int i = 0; i < 9; i++) {
        double y = ((k[i] = -0.4 + 0.1 * i) - 0.05) / 0.2;
        w[i] = 0.04 - 0.003 * y + 0.02 * sqrt(y * y + 1), scaled[i] = 1;
    }
    PortLimits limits = {1e-8, 1, 1e-12, 1e-12};
    PortCell c = port_cell(k, 9, w, 9, scaled, 9, limits, 0.05, 0.2);
    EXPECT(c.some && c.faces == 1 && c.objective < 1e-30 && fabs(c.x[0] - 0.04) < 1e-12 && fabs(c.x[1] + 0.003) < 1e-12);
    EXPECT(c.updates == 8);
    c = port_cell(k, 9, w, 8, scaled, 9, limits, 0.05, 0.2);
    EXPECT(!c.some && c.faces == 0 && c.updates == 0);
    /* quotes that curve down, so that all faces are tried, and about m, so that factors are 0; then not about m: what the published Rust updates */
    static const double strikes[5] = {-2, -1, 0, 1, 2}, down[5] = {0, 0.1875, 0.25, 0.1875, 0}, ones[5] = {1, 1, 1, 1, 1};
    c = port_cell(strikes, 5, down, 5, ones, 5, limits, 0, 1);
    EXPECT(c.some && c.faces == 64 && c.objective == 0.0546875 && c.updates == 1823);
    c = port_cell(strikes, 5, down, 5, ones, 5, limits, 0.25, 1);
    EXPECT(c.some && c.faces == 64 && c.updates == 2673);
}

static void all(void)
{
    ranges();
    slices();
    points();
    surfaces();
    policies();
    diagnostics();
    updates();
    inside();
}

int main(void)
{
    layouts();
    EXPECT(with_stack(PORT_STACK + TESTS_OWN, all) == 0);
    printf("%d passed, %d failed\n", passed, failed);
    return failed != 0;
}
