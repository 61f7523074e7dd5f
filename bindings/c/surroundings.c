/* What the library owes to its surroundings: the processor's rounding. The proofs speak of IEEE arithmetic that rounds to nearest and keeps subnormal numbers;
 * a thread that rounds otherwise, flushes small numbers to 0 (as -ffast-math can make a whole program do) or traps on exceptions breaks that.
 * The header names it among what a caller vouches for. Here: the library leaves the rounding as it finds it, the answers under the usual rounding come
 * back afterwards, and the other roundings do show. Its last line is 'N passed, M failed'. */
#include "kesupayro.h"

#include "expect.h"
#include <fenv.h>
#include <math.h>
#include <string.h>

/* The word by which the processor rounds, without its marks of past exceptions, and the bits of it that flush subnormal numbers to 0. */
#if defined(__x86_64__)
#include <xmmintrin.h>
enum { FLUSH = 0x8040 };
static unsigned get_word(void) { return _mm_getcsr() & ~0x3fu; }
static void set_word(unsigned word) { _mm_setcsr(word); }
#elif defined(__aarch64__)
enum { FLUSH = 1 << 24 };
static unsigned get_word(void)
{
    uint64_t word;
    __asm__ volatile("mrs %0, fpcr" : "=r"(word));
    return (unsigned)word;
}
static void set_word(unsigned word) { __asm__ volatile("msr fpcr, %0" : : "r"((uint64_t)word)); }
#endif

/* some answers, as bits */
static uint64_t answers(void)
{
    volatile double two = 2, tenth = 0.1, small = 1e-310;
    double v[] = {port_exp(tenth), port_ln(two), port_exp(-two), port_exp(-735.5), port_ln(small), port_sqrt(two), port_hypot(two, tenth)};
    uint64_t all = 14695981039346656037u, bits;
    for (size_t i = 0; i < sizeof v / sizeof *v; i++)
        memcpy(&bits, v + i, 8), all = (all ^ bits) * 1099511628211u;
    return all;
}

int main(void)
{
    uint64_t usual = answers();
    unsigned word = get_word();
    EXPECT(fegetround() == FE_TONEAREST && get_word() == word);
    static const int ways[] = {FE_UPWARD, FE_DOWNWARD, FE_TOWARDZERO};
    for (int i = 0; i < 3; i++) {
        EXPECT(fesetround(ways[i]) == 0);
        EXPECT(answers() != usual); /* not promised: this is why the header names it */
        EXPECT(fegetround() == ways[i]);
        fesetround(FE_TONEAREST);
        EXPECT(answers() == usual);
    }
    set_word(word | FLUSH);
    EXPECT(answers() != usual);
    EXPECT(get_word() == (word | FLUSH));
    set_word(word);
    EXPECT(answers() == usual && get_word() == word);
    printf("%d passed, %d failed\n", passed, failed);
    return failed != 0;
}
