/* Counts what holds and prints what does not. */
#include <stdio.h>

static int passed, failed;

#define EXPECT(what) ((what) ? (void)passed++ : (failed++, (void)printf("%s:%d: %s\n", __FILE__, __LINE__, #what)))
