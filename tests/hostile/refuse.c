/* Stands between a program and the system: it refuses one call, as the environment asks, and counts the calls.
 *
 * Loaded by LD_PRELOAD. REFUSE names a call (memory, open, read, write), REFUSE_AT its number from 1, and REFUSE_AS what
 * happens there: "fail" (no memory; EIO), "interrupt" (EINTR), "short" (a read or a write of one byte), "full" (ENOSPC)
 * or "closed" (EPIPE). AT_MOST is a number of bytes: no read and no write takes more. COUNT_TO names a file to which the
 * numbers of calls are written when the program ends. Counting begins with main, so that the loader's own calls pass.
 */
#define _GNU_SOURCE
#include <dlfcn.h>
#include <errno.h>
#include <fcntl.h>
#include <stdarg.h>
#include <stdio.h>
#include <stdlib.h>
#include <string.h>
#include <unistd.h>

enum call { MEMORY, OPEN, READ, WRITE, CALLS };
static const char *const names[CALLS] = { "memory", "open", "read", "write" };
static int ready, refused = -1;
static unsigned long counts[CALLS], at;
static size_t most = (size_t)-1;
static const char *as = "fail";

static void *(*real_malloc)(size_t);
static void *(*real_realloc)(void *, size_t);
static int (*real_open)(const char *, int, ...);
static ssize_t (*real_read)(int, void *, size_t);
static ssize_t (*real_write)(int, const void *, size_t);

__attribute__((constructor)) static void begin(void)
{
    const char *call = getenv("REFUSE"), *number = getenv("REFUSE_AT"), *way = getenv("REFUSE_AS"), *bytes = getenv("AT_MOST");
    real_malloc = dlsym(RTLD_NEXT, "malloc");
    real_realloc = dlsym(RTLD_NEXT, "realloc");
    real_open = dlsym(RTLD_NEXT, "open");
    real_read = dlsym(RTLD_NEXT, "read");
    real_write = dlsym(RTLD_NEXT, "write");
    for (int i = 0; call && i < CALLS; i++)
        if (!strcmp(call, names[i])) refused = i;
    if (number) at = strtoul(number, NULL, 10);
    if (way) as = way;
    if (bytes) most = strtoul(bytes, NULL, 10);
    ready = 1;
}

__attribute__((destructor)) static void end(void)
{
    const char *path = getenv("COUNT_TO");
    char line[128];
    ready = 0;
    if (!path) return;
    int file = real_open(path, O_WRONLY | O_CREAT | O_TRUNC, 0644);
    int size = snprintf(line, sizeof line, "memory %lu open %lu read %lu write %lu\n",
                        counts[MEMORY], counts[OPEN], counts[READ], counts[WRITE]);
    if (file < 0 || real_write(file, line, size) != size) _exit(99);
}

/* Whether this call is the one that is refused. */
static int is_refused(enum call call)
{
    if (!ready) return 0;
    counts[call]++;
    return (int)call == refused && counts[call] == at;
}

static int error(void)
{
    if (!strcmp(as, "interrupt")) return EINTR;
    if (!strcmp(as, "full")) return ENOSPC;
    if (!strcmp(as, "closed")) return EPIPE;
    return EIO;
}

void *malloc(size_t size)
{
    if (!real_malloc) real_malloc = dlsym(RTLD_NEXT, "malloc");
    return is_refused(MEMORY) ? NULL : real_malloc(size);
}

void *realloc(void *old, size_t size)
{
    if (!real_realloc) real_realloc = dlsym(RTLD_NEXT, "realloc");
    return is_refused(MEMORY) ? NULL : real_realloc(old, size);
}

int open(const char *path, int flags, ...)
{
    mode_t mode = 0;
    if (flags & O_CREAT) {
        va_list rest;
        va_start(rest, flags);
        mode = va_arg(rest, mode_t);
        va_end(rest);
    }
    if (is_refused(OPEN)) {
        errno = error();
        return -1;
    }
    return real_open(path, flags, mode);
}

static size_t least(size_t count, size_t other)
{
    return count < other ? count : other;
}

ssize_t read(int file, void *bytes, size_t count)
{
    if (!is_refused(READ)) return real_read(file, bytes, ready ? least(count, most) : count);
    if (!strcmp(as, "short")) return real_read(file, bytes, least(count, 1));
    errno = error();
    return -1;
}

ssize_t write(int file, const void *bytes, size_t count)
{
    if (!is_refused(WRITE)) return real_write(file, bytes, ready ? least(count, most) : count);
    if (!strcmp(as, "short")) return real_write(file, bytes, least(count, 1));
    errno = error();
    return -1;
}
