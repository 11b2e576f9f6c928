/* An allocator that refuses one growth of memory, whose number from 1 the variable REFUSED_GROWTH has, and then writes one
   byte to the descriptor whose number REFUSAL_TOLD_TO has. tests/lib/growths.py has it loaded before a program (LD_PRELOAD). */
#define _GNU_SOURCE
#include <dlfcn.h>
#include <errno.h>
#include <stdlib.h>
#include <unistd.h>

static int is_refused(void)
{
    static long growths;
    const char *refused = getenv("REFUSED_GROWTH"), *told_to = getenv("REFUSAL_TOLD_TO");

    growths += 1;
    if (!refused || atol(refused) != growths)
        return 0;
    if (told_to && write(atoi(told_to), "", 1) != 1)
        abort();
    errno = ENOMEM;
    return 1;
}

void *malloc(size_t size)
{
    static void *(*next)(size_t);

    if (!next)
        next = (void *(*)(size_t))dlsym(RTLD_NEXT, "malloc");
    return is_refused() ? NULL : next(size);
}

void *realloc(void *old, size_t size)
{
    static void *(*next)(void *, size_t);

    if (!next)
        next = (void *(*)(void *, size_t))dlsym(RTLD_NEXT, "realloc");
    return is_refused() ? NULL : next(old, size);
}
