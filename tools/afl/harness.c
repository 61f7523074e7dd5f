/* The compiled program under AFL, many files in one process. fit_main is the program's main (see instrument), which reads and writes by the two functions
   below: reads come in pieces of changing length, so that a file that arrives slowly is tried too; what is written is collected and looked at.
   An answer that has none of the forms of the print rules ends in abort(), which AFL keeps as a crash. Without AFL: harness FILE.. answers each file. */
#include <errno.h>
#include <stdint.h>
#include <stdio.h>
#include <stdlib.h>
#include <string.h>
#include <sys/types.h>
#include <unistd.h>

void fit_main(void);
uint64_t fuzz_before;

static const uint8_t *file;
static size_t length, at, pieces;
static char answer[65536];
static size_t written;

ssize_t fuzz_read(int from, void *to, size_t most) {
    if (from != 0) abort();
    size_t n = length - at;
    if (n > most) n = most;
    size_t piece = (pieces++ * 1237 + length) % 4096 + 1;
    if (n > piece) n = piece;
    memcpy(to, file + at, n);
    at += n;
    return (ssize_t)n;
}

ssize_t fuzz_write(int to, const void *from, size_t n) {
    if (to != 1 || n > sizeof answer - written) abort();
    size_t piece = (pieces++ * 911) % 7000 + 1;
    if (n > piece) n = piece;
    memcpy(answer + written, from, n);
    written += n;
    return (ssize_t)n;
}

/* What the kit links with a program. */
int32_t rattle_errno(void) { return errno; }

static const char *line(const char *p, const char *word, int values, int hex) {
    size_t n = strlen(word);
    if (strncmp(p, word, n)) abort();
    p += n;
    for (int i = 0; i < values; i++) {
        if (*p++ != ' ') abort();
        size_t digits = hex ? strspn(p, "0123456789abcdef") : strspn(p, "0123456789");
        if (hex ? digits != 16 : digits < 1 || digits > 20) abort();
        p += digits;
    }
    return p;
}

static const char *whole(const char *p, const char *word, int values, int hex) {
    p = line(p, word, values, hex);
    if (*p++ != '\n') abort();
    return p;
}

/* every form that an answer can have */
static void look_at_answer(void) {
    if (written >= 32768) abort();
    answer[written] = 0;
    if (!strcmp(answer, "refused 43 0 0\n")) return;
    if (strncmp(answer, "read ", 5)) abort();
    unsigned r, k;
    int n = 0;
    if (sscanf(answer, "read %u kept %u\n%n", &r, &k, &n) != 2 || n == 0 || k > r || r > 256) abort();
    const char *p = strchr(answer, '\n') + 1;
    if (!strncmp(p, "fit", 3)) {
        p = whole(p, "fit", 6, 1);
        p = whole(p, "search", 6, 0);
        p = whole(p, "margins", 5, 1);
        if (strncmp(p, "active ", 7) || strspn(p + 7, "01") != 7 || p[14] != '\n') abort();
        p += 15;
        unsigned count;
        if (sscanf(p, "capped %u", &count) != 1 || count > k) abort();
        p = whole(p, "capped", 1 + (int)count, 0);
        for (unsigned i = 0; i < k; i++) p = whole(p, "point", 4, 1);
        if (*p) abort();
        return;
    }
    int searched = !strncmp(p, "search", 6);
    if (searched) p = whole(p, "search", 6, 0);
    unsigned number;
    if (sscanf(p, "refused %u ", &number) != 1) abort();
    if (searched != (number >= 6 && number <= 9)) abort();
    if ((number < 1 || number > 12) && number != 44) abort();
    if ((number == 10 || number == 11 || number == 44) && k != r) abort(); /* refused before anything is dropped */
    p = number == 9 ? whole(line(p, "refused", 1, 0), "", 2, 1) : whole(p, "refused", 3, 0);
    if (*p) abort();
}

#ifdef SHORT
static const double defaults[] = {0.005, 10, 1e-8, 0, 0.02, 1e-12, 1e-12, 10}; /* after the three whole numbers; the fourth is min_observations */

/* Keeps a long search short: a smaller grid, fewer passes; the default settings written out. Sizes that are refused stay. */
static const uint8_t *shorten(const uint8_t *bytes, size_t *n) {
    static uint8_t copy[9000];
    uint64_t v[3], five = 5; /* grid, refinements, max_recentres */
    if (*n < 20 || *n > 8300) return bytes;
    if (!memcmp(bytes, "\0\0\0\0", 4)) {
        memcpy(copy, "\1\0\0\0", 4);
        v[0] = 21, v[1] = 12, v[2] = 40;
        memcpy(copy + 28, defaults, sizeof defaults);
        memcpy(copy + 52, &five, 8);
        memcpy(copy + 92, bytes + 4, *n - 4);
        *n += 88;
    } else {
        if (*n < 108 || memcmp(bytes, "\1\0\0\0", 4)) return bytes;
        memcpy(v, bytes + 4, sizeof v);
        if (v[0] < 5 || v[0] > 255 || v[1] > 1000 || v[2] > 1000) return bytes;
        memcpy(copy, bytes, *n);
    }
    if (v[0] * v[0] * (v[1] + 2 * v[2] + 1) > 400) {
        v[0] = 5 + v[0] % 4;
        v[1] %= 3;
        v[2] %= 3;
    }
    memcpy(copy + 4, v, sizeof v);
    return copy;
}
#endif

static void ask(const uint8_t *bytes, size_t n) {
#ifdef SHORT
    bytes = shorten(bytes, &n);
#endif
    file = bytes;
    length = n;
    at = pieces = written = 0;
    fuzz_before = 0;
    fit_main();
    look_at_answer();
}

#ifdef __AFL_FUZZ_TESTCASE_LEN
__AFL_FUZZ_INIT();
#else
unsigned char *__afl_area_ptr;
#endif

int main(int count, char **names) {
#ifdef __AFL_FUZZ_TESTCASE_LEN
    if (count < 2) {
        __AFL_INIT();
        unsigned char *bytes = __AFL_FUZZ_TESTCASE_BUF;
        while (__AFL_LOOP(10000)) ask(bytes, __AFL_FUZZ_TESTCASE_LEN);
        return 0;
    }
#else
    static unsigned char area[65536 * 2];
    __afl_area_ptr = area;
#endif
    static uint8_t bytes[1 << 20];
    for (int i = 1; i < count; i++) {
        FILE *f = fopen(names[i], "rb");
        if (!f) return 2;
        size_t n = fread(bytes, 1, sizeof bytes, f);
        fclose(f);
        ask(bytes, n);
        fwrite(answer, 1, written, stdout);
    }
}
