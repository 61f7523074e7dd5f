/* Answers a house file on standard input as the program `fit` does: repeats are dropped, the rest is fitted.
 *   cc -I include examples/c/answer.c target/staticlib/libport.a -o answer && ./answer < samples/dealer.house */
#include "kesupayro.h"

#include <stdio.h>

/* A file is at most 8,300 bytes; one byte more shows that it is longer. */
static uint8_t file[8301];
static uint8_t out[PORT_MOST_ANSWER];

int main(void)
{
    if (port_abi() != PORT_ABI) {
        fprintf(stderr, "this program was compiled for ABI number %lu, the library has %lu: docs/ABI.md\n", (unsigned long)PORT_ABI, (unsigned long)port_abi());
        return 1;
    }
    size_t read = fread(file, 1, sizeof file, stdin);
    size_t length = port_run(file, read, out, sizeof out);
    return fwrite(out, 1, length, stdout) == length ? 0 : 1;
}
