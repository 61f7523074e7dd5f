/* Fits quotes as they came in, one of them sent nine times, and prices strikes off the curve.
 *   cc -I include examples/c/fit.c target/staticlib/libport.a -lm -o fit && ./fit */
#include "kesupayro.h"

#include <inttypes.h>
#include <math.h>
#include <stdio.h>

enum { STRIKES = 7, RETRIES = 8, QUOTES = STRIKES + RETRIES, STALE = 3 };

static const double strikes[STRIKES] = {82, 88, 94, 100, 106, 112, 118};
static const double vols[STRIKES] = {0.355, 0.304, 0.252, 0.258, 0.209, 0.228, 0.252};
static const double forward = 100, tau = 0.25;

/* Implied volatility of a slice at k, or 0 where it does not evaluate. */
static double vol_at(PortSviSlice slice, double k)
{
    PortValuesAnswer at = port_eval(slice, k);
    return at.number == 0 ? sqrt(at.w / slice.tau) : 0;
}

int main(void)
{
    if (port_abi() != PORT_ABI) {
        fprintf(stderr, "this program was compiled for ABI number %lu, the library has %" PRIu32 ": docs/ABI.md\n", (unsigned long)PORT_ABI, port_abi());
        return 1;
    }
    PortQuote quotes[QUOTES];
    double residuals[4 * QUOTES];
    uint64_t capped[QUOTES];
    for (int i = 0; i < QUOTES; i++) {
        int j = i < STRIKES ? i : STALE; /* the offline queue sends the stale quote again and again */
        quotes[i].number = 101 + (uint64_t)j;
        quotes[i].k = log(strikes[j] / forward);
        quotes[i].w = vols[j] * vols[j] * tau;
        quotes[i].weight = 1;
    }

    PortQuotesAnswer answer = port_fit_quotes(tau, port_default_config(), quotes, QUOTES, residuals, 4 * QUOTES, capped, QUOTES);
    printf("%" PRIu64 " quotes read, %" PRIu64 " kept\n", answer.read, answer.kept);
    if (answer.fit.number != PORT_FITTED) {
        printf("refused: %" PRIu32 "\n", answer.fit.number);
        return 1;
    }
    printf("fitted, %.2f vol points rmse, %" PRIu64 " passes\n", 100 * answer.fit.rmse_vol, answer.fit.counts.passes);
    for (int i = 0; i < STRIKES; i++)
        printf("strike %3.0f  quoted %.1f %%  fitted %.1f %%  residual %+.1f\n",
               strikes[i], 100 * vols[i], 100 * vol_at(answer.fit.slice, quotes[i].k), 100 * residuals[4 * i + 3]);
    return 0;
}
