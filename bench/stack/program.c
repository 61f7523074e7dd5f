/* Measures the stack of a whole program, into which it is loaded beforehand (LD_PRELOAD): before the program begins it paints the stack, and when the program ends
 * it prints to standard error how many bytes below the program's arguments are no longer paint. Built and run by bench/run stack. */
enum { PAINTED = 1 << 20, PAINT = 0xa5, LEAST = 512 };

int dprintf(int stream, const char *format, ...);

static unsigned char *arguments, *low;

/* Started by the loader, as main will be. */
__attribute__((constructor)) static void paint(int count, char **words)
{
    volatile unsigned char *here = __builtin_frame_address(0);
    (void)count;
    arguments = (unsigned char *)words;
    low = (unsigned char *)here - PAINTED;
    for (int i = LEAST; i <= PAINTED; i++)
        here[-i] = PAINT;
}

__attribute__((destructor)) static void tell(void)
{
    const unsigned char *used = low;
    while (*used == PAINT)
        used++;
    dprintf(2, "%ld\n", (long)(arguments - used));
}
