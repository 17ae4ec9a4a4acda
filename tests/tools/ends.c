/* Numbers the writes and syncs of the file FILE and the syncs of its folder, from 1, and tells them in the file TOLD. At
   the call whose number is AT it does what HOW says:

       before   the program is killed in front of the call
       after    the program is killed behind it
       front    the first half is written, and the program is killed
       back     the second half is written, and the program is killed
       fails    nothing is done, and the call fails
       torn     the first half is written, and the call fails
       full     the first half is written and told as written; this file takes no byte any more

   With `short` each write takes 7 bytes at most, and a signal breaks off each other one. Loaded before the C library by
   `tests/crash`. */
#define _GNU_SOURCE
#include <dlfcn.h>
#include <errno.h>
#include <fcntl.h>
#include <signal.h>
#include <stdint.h>
#include <stdlib.h>
#include <string.h>
#include <sys/stat.h>
#include <sys/syscall.h>
#include <unistd.h>

/* A call that was made, in front of the bytes that it wrote. */
struct call {
    uint32_t kind; /* one of the letters W, S, D */
    uint32_t failed;
    uint64_t place, size;
};

static const char *path, *how;
static unsigned long at, number, broken_off;
static int told = -1, is_full;

__attribute__((constructor)) static void begin(void)
{
    const char *name = getenv("TOLD"), *text = getenv("AT");
    path = getenv("FILE");
    how = getenv("HOW") ? getenv("HOW") : "";
    at = text ? strtoul(text, NULL, 10) : 0;
    if (name)
        told = open(name, O_WRONLY | O_APPEND | O_CLOEXEC);
}

/* W of the file, D of its folder, and 0 of any other. */
static uint32_t kind_of(int file)
{
    struct stat given, wanted;
    char folder[4096];
    if (!path || fstat(file, &given))
        return 0;
    if (!stat(path, &wanted) && given.st_dev == wanted.st_dev && given.st_ino == wanted.st_ino)
        return 'W';
    if (!S_ISDIR(given.st_mode) || strlen(path) >= sizeof folder)
        return 0;
    strcpy(folder, path);
    char *name = strrchr(folder, '/');
    strcpy(name ? name : folder, name ? "" : ".");
    return !stat(folder, &wanted) && given.st_dev == wanted.st_dev && given.st_ino == wanted.st_ino ? 'D' : 0;
}

static void tell(uint32_t kind, int failed, const void *bytes, uint64_t size, uint64_t place)
{
    static char room[1 << 18];
    struct call call = {kind, failed, place, size};
    if (told < 0 || sizeof call + size > sizeof room)
        return;
    memcpy(room, &call, sizeof call);
    memcpy(room + sizeof call, bytes, size);
    if (syscall(SYS_write, told, room, sizeof call + size) < 0)
        abort();
}

static void end(void)
{
    kill(getpid(), SIGKILL);
    for (;;)
        pause();
}

static int is(const char *name)
{
    return number == at && !strcmp(how, name);
}

static ssize_t put(int file, const void *bytes, size_t size, off64_t place)
{
    return size ? syscall(SYS_pwrite64, file, bytes, size, place) : 0;
}

static ssize_t fails(int why)
{
    errno = why;
    return -1;
}

static ssize_t written(int file, const void *bytes, size_t size, off64_t place)
{
    size_t half = size / 2;
    if (!strcmp(how, "short")) {
        if (broken_off++ % 2 == 0)
            return fails(EINTR);
        size = size < 7 ? size : 7;
    }
    number++;
    if (is_full)
        return fails(ENOSPC);
    if (is("before"))
        end();
    if (is("fails"))
        return fails(EIO);
    if (is("front") || is("torn") || is("full"))
        size = half;
    if (is("back")) {
        put(file, (const char *)bytes + half, size - half, place + half);
        end();
    }
    ssize_t done = put(file, bytes, size, place);
    if (is("front"))
        end();
    is_full = is("full");
    if (done >= 0)
        tell('W', is("torn"), bytes, done, place);
    if (is("after"))
        end();
    if (is("torn"))
        return fails(EIO);
    return is_full && !done ? fails(ENOSPC) : done;
}

ssize_t pwrite64(int file, const void *bytes, size_t size, off64_t place)
{
    if (kind_of(file) == 'W')
        return written(file, bytes, size, place);
    return syscall(SYS_pwrite64, file, bytes, size, place);
}

ssize_t pwrite(int file, const void *bytes, size_t size, off_t place)
{
    return pwrite64(file, bytes, size, place);
}

ssize_t write(int file, const void *bytes, size_t size)
{
    if (kind_of(file) == 'W') {
        off64_t place = lseek64(file, 0, SEEK_CUR);
        ssize_t done = written(file, bytes, size, place);
        if (done > 0)
            lseek64(file, done, SEEK_CUR);
        return done;
    }
    return syscall(SYS_write, file, bytes, size);
}

static int synced(int file, long call)
{
    uint32_t kind = kind_of(file);
    if (!kind)
        return syscall(call, file);
    number++;
    if (is("before") || is("front") || is("back"))
        end();
    if (is("fails") || is("torn"))
        return fails(EIO);
    int done = syscall(call, file);
    tell(kind == 'W' ? 'S' : kind, done != 0, "", 0, 0);
    if (is("after"))
        end();
    return done;
}

int fsync(int file)
{
    return synced(file, SYS_fsync);
}

int fdatasync(int file)
{
    return synced(file, SYS_fdatasync);
}
