/* Refuses one request for memory of a program that it is preloaded into: that of the number in REFUSED, counted from 1
 * from the start of main, resizing included. How many were made, the refused one included, stands in the file COUNTED
 * at each moment, however the program ends: eight bytes, in the order of the machine. */
#define _GNU_SOURCE
#include <dlfcn.h>
#include <errno.h>
#include <fcntl.h>
#include <stdlib.h>
#include <sys/mman.h>
#include <unistd.h>

static unsigned long refused, here, *counted = &here;

__attribute__((constructor)) static void begin(void)
{
    const char *number = getenv("REFUSED"), *name = getenv("COUNTED");
    int file = name ? open(name, O_RDWR | O_CREAT | O_CLOEXEC, 0666) : -1;
    if (file >= 0 && ftruncate(file, sizeof here) == 0) {
        void *mapped = mmap(NULL, sizeof here, PROT_READ | PROT_WRITE, MAP_SHARED, file, 0);
        if (mapped != MAP_FAILED)
            counted = mapped;
    }
    if (file >= 0)
        close(file);
    *counted = 0;
    refused = number ? strtoul(number, NULL, 10) : 0;
}

static int is_refused(void)
{
    return __atomic_add_fetch(counted, 1, __ATOMIC_RELAXED) == refused;
}

void *malloc(size_t size)
{
    static void *(*next)(size_t);
    if (!next)
        next = (void *(*)(size_t))dlsym(RTLD_NEXT, "malloc");
    if (is_refused()) {
        errno = ENOMEM;
        return NULL;
    }
    return next(size);
}

void *realloc(void *block, size_t size)
{
    static void *(*next)(void *, size_t);
    if (!next)
        next = (void *(*)(void *, size_t))dlsym(RTLD_NEXT, "realloc");
    if (is_refused()) {
        errno = ENOMEM;
        return NULL;
    }
    return next(block, size);
}

int posix_memalign(void **block, size_t alignment, size_t size)
{
    static int (*next)(void **, size_t, size_t);
    if (!next)
        next = (int (*)(void **, size_t, size_t))dlsym(RTLD_NEXT, "posix_memalign");
    if (is_refused())
        return ENOMEM;
    return next(block, alignment, size);
}
