/* How often the platform's exp, ln and hypot are other floats than the port's: COUNT arguments of each, from one seed. Built and run by tools/elementary/platform. */
#include "kesupayro.h"

#include <math.h>
#include <stdio.h>
#include <stdlib.h>

int main(int words, char **word)
{
    long count = words > 1 ? atol(word[1]) : 2000000, e = 0, l = 0, h = 0;
    uint64_t s = 12345;
    for (long i = 0; i < count; i++) {
        s = s * 6364136223846793005u + 1442695040888963407u;
        double u = (double)(s >> 11) / 9007199254740992.0; /* from 0 to 1 */
        e += port_exp(u * 8 - 4) != exp(u * 8 - 4);
        l += port_ln(u * 50 + 1e-9) != log(u * 50 + 1e-9);
        h += port_hypot(u * 20 - 10, u) != hypot(u * 20 - 10, u);
    }
    printf("of %ld arguments the platform differs: exp %ld (from -4 to 4), ln %ld (up to 50), hypot %ld (from -10 to 10, and from 0 to 1)\n", count, e, l, h);
    return 0;
}
