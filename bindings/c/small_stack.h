/* Runs a function on a thread that has only so many bytes of stack: memory below them is taken away, so that a call that needs more ends the process by SIGSEGV.
 * It stands on a larger stack, since C libraries refuse to make a thread with less than PTHREAD_STACK_MIN. Wants _DEFAULT_SOURCE. */
#include <pthread.h>
#include <stdint.h>
#include <sys/mman.h>
#include <unistd.h>

/* What the frames of tests take themselves, besides the calls that they make; and what is there for the thread and to be taken away. */
enum { TESTS_OWN = 4 << 10, BELOW = 1 << 20 };

typedef struct {
    void (*run)(void);
    size_t bytes;
    unsigned char *memory; /* the thread's stack, from its lowest byte */
} SmallStack;

static unsigned char *volatile moved;

static void *on_small_stack(void *given)
{
    const SmallStack *s = given;
    uintptr_t here = (uintptr_t)__builtin_frame_address(0);
    /* Only whole pages can be taken away: this frame grows until the bytes below it end where a page does. */
    size_t more = (here - s->bytes) % (uintptr_t)sysconf(_SC_PAGESIZE);
    moved = __builtin_alloca(more);
    if (mprotect(s->memory, here - more - s->bytes - (uintptr_t)s->memory, PROT_NONE))
        return NULL;
    s->run();
    return given;
}

/* 0 where the function came back; 1 where there was no such thread. */
static int with_stack(size_t bytes, void (*run)(void))
{
    pthread_attr_t attr;
    pthread_t thread;
    void *done = NULL;
    SmallStack s = {run, bytes, mmap(NULL, BELOW + bytes, PROT_READ | PROT_WRITE, MAP_PRIVATE | MAP_ANONYMOUS, -1, 0)};
    if (s.memory == MAP_FAILED || pthread_attr_init(&attr) || pthread_attr_setstack(&attr, s.memory, BELOW + bytes))
        return 1;
    if (pthread_create(&thread, &attr, on_small_stack, &s) || pthread_join(thread, &done))
        return 1;
    munmap(s.memory, BELOW + bytes);
    return done == NULL;
}
