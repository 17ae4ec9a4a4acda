/* A disk whose sync takes longer: preloaded, it waits SYNC_US microseconds in front of each sync (`archive.sh`). */
#define _GNU_SOURCE
#include <stdlib.h>
#include <sys/syscall.h>
#include <time.h>
#include <unistd.h>

static int synced(int file, long call)
{
    const char *said = getenv("SYNC_US");
    long wait = said ? atol(said) : 0;
    struct timespec time = {wait / 1000000, wait % 1000000 * 1000};

    nanosleep(&time, NULL);
    return syscall(call, file);
}

int fsync(int file)
{
    return synced(file, SYS_fsync);
}

int fdatasync(int file)
{
    return synced(file, SYS_fdatasync);
}
