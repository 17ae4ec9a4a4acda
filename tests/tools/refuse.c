/* Refuses one request for memory: the malloc whose number is REFUSE, counted from 1. The file MADE, of eight bytes, is given
   how many were made. Loaded before the C library by `tests/memory`. */
#define _GNU_SOURCE
#include <dlfcn.h>
#include <errno.h>
#include <fcntl.h>
#include <stdatomic.h>
#include <stdlib.h>
#include <sys/mman.h>
#include <unistd.h>

static void *(*real)(size_t);
static _Atomic unsigned long own;
static _Atomic unsigned long *made = &own;
static unsigned long refused;

__attribute__((constructor)) static void begin(void)
{
    const char *number = getenv("REFUSE"), *path = getenv("MADE");
    real = (void *(*)(size_t))dlsym(RTLD_NEXT, "malloc");
    refused = number ? strtoul(number, NULL, 10) : 0;
    if (path) {
        int file = open(path, O_RDWR);
        void *shared = file < 0 ? MAP_FAILED : mmap(NULL, sizeof *made, PROT_READ | PROT_WRITE, MAP_SHARED, file, 0);
        if (shared != MAP_FAILED)
            made = shared;
    }
    atomic_store(made, 0);
}

void *malloc(size_t size)
{
    if (!real)
        real = (void *(*)(size_t))dlsym(RTLD_NEXT, "malloc");
    if (atomic_fetch_add(made, 1) + 1 == refused) {
        errno = ENOMEM;
        return NULL;
    }
    return real(size);
}
