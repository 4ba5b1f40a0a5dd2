/* Refuses one call that takes memory, the one whose number REFUSED has, and makes the file that REFUSED_TOLD names when it
 * does. To be loaded in front of the C library (LD_PRELOAD). */
#define _GNU_SOURCE
#include <dlfcn.h>
#include <fcntl.h>
#include <stdlib.h>
#include <unistd.h>

static long left;
static void *(*real_malloc)(size_t);
static void *(*real_calloc)(size_t, size_t);
static void *(*real_realloc)(void *, size_t);

__attribute__((constructor)) static void begin(void)
{
    real_malloc = dlsym(RTLD_NEXT, "malloc");
    real_calloc = dlsym(RTLD_NEXT, "calloc");
    real_realloc = dlsym(RTLD_NEXT, "realloc");
    const char *call = getenv("REFUSED");
    left = call ? atol(call) : 0;
}

static int is_refused(void)
{
    if (left == 0 || --left > 0)
        return 0;
    const char *told = getenv("REFUSED_TOLD");
    if (told)
        close(open(told, O_CREAT | O_WRONLY, 0644));
    return 1;
}

void *malloc(size_t size)
{
    if (!real_malloc)
        real_malloc = dlsym(RTLD_NEXT, "malloc");
    return is_refused() ? NULL : real_malloc(size);
}

void *calloc(size_t count, size_t size)
{
    if (!real_calloc)
        real_calloc = dlsym(RTLD_NEXT, "calloc");
    return is_refused() ? NULL : real_calloc(count, size);
}

void *realloc(void *block, size_t size)
{
    if (!real_realloc)
        real_realloc = dlsym(RTLD_NEXT, "realloc");
    return is_refused() ? NULL : real_realloc(block, size);
}
