/* Preloaded, makes one call of the program fail: the Nth of one kind, counted over the whole run. What happened is told
   in a file, which the driver (failing.py) maps and reads when the run is over.

   FAILING_KIND  which calls are counted: memory, open, read, write, list (of a folder) or look (what a file is)
   FAILING_AT    N, counted from 1
   FAILING_HOW   what the Nth gives: the number of an error; else 'one', where a read or write moves one byte, or 'none',
                 where a write moves none
   FAILING_FILE  a file of 4096 zero bytes
*/
#define _GNU_SOURCE
#include <dlfcn.h>
#include <errno.h>
#include <fcntl.h>
#include <stdarg.h>
#include <stdio.h>
#include <stdlib.h>
#include <string.h>
#include <sys/mman.h>
#include <sys/stat.h>
#include <unistd.h>

static struct told {
    unsigned long calls;  /* of the kind */
    unsigned long failed; /* 1 once the Nth came */
    unsigned long opens;  /* how often a file was to be opened, whatever the kind is */
    long file;            /* the number of the open file that the Nth call was about */
    char path[4000];      /* its path */
} *told;

static unsigned long at;
static const char *kind = "", *how = "";

extern void *__libc_malloc(size_t), *__libc_calloc(size_t, size_t), *__libc_realloc(void *, size_t);
extern void *__libc_memalign(size_t, size_t);

__attribute__((constructor)) static void begin(void) {
    int file = open(getenv("FAILING_FILE"), O_RDWR);
    struct told *shared = mmap(0, sizeof *told, PROT_READ | PROT_WRITE, MAP_SHARED, file, 0);
    if (file < 0 || shared == MAP_FAILED)
        abort();
    close(file);
    kind = getenv("FAILING_KIND"), how = getenv("FAILING_HOW"), at = strtoul(getenv("FAILING_AT"), 0, 10);
    told = shared; /* from here on calls count */
}

/* Whether this call is the one that fails. */
static int fails(const char *asked) {
    if (!told || strcmp(kind, asked) || ++told->calls != at)
        return 0;
    told->failed = 1;
    errno = atoi(how) ? atoi(how) : ENOMEM;
    return 1;
}

static void tell(int file) {
    char link[64];
    int error = errno;
    told->file = file;
    snprintf(link, sizeof link, "/proc/self/fd/%d", file);
    if (readlink(link, told->path, sizeof told->path - 1) < 0)
        abort();
    errno = error;
}

void *malloc(size_t size) { return fails("memory") ? 0 : __libc_malloc(size); }
void *calloc(size_t count, size_t size) { return fails("memory") ? 0 : __libc_calloc(count, size); }
void *realloc(void *old, size_t size) { return fails("memory") ? 0 : __libc_realloc(old, size); }
void *memalign(size_t to, size_t size) { return fails("memory") ? 0 : __libc_memalign(to, size); }
void *aligned_alloc(size_t to, size_t size) { return memalign(to, size); }
int posix_memalign(void **result, size_t to, size_t size) { return (*result = memalign(to, size)) ? 0 : ENOMEM; }

ssize_t read(int file, void *bytes, size_t most) {
    static ssize_t (*next)(int, void *, size_t);
    if (!next)
        next = dlsym(RTLD_NEXT, "read");
    if (!fails("read"))
        return next(file, bytes, most);
    tell(file);
    return strcmp(how, "one") ? -1 : next(file, bytes, most ? 1 : 0);
}

ssize_t write(int file, const void *bytes, size_t most) {
    static ssize_t (*next)(int, const void *, size_t);
    if (!next)
        next = dlsym(RTLD_NEXT, "write");
    if (!fails("write"))
        return next(file, bytes, most);
    tell(file);
    return !strcmp(how, "none") ? 0 : strcmp(how, "one") ? -1 : next(file, bytes, most ? 1 : 0);
}
ssize_t __write(int file, const void *bytes, size_t most) { return write(file, bytes, most); }

/* Whether this call, which opens a file, is the one that fails. */
static int fails_to_open(const char *path) {
    if (told)
        told->opens++;
    if (!fails("open"))
        return 0;
    strncpy(told->path, path, sizeof told->path - 1);
    return 1;
}

int open(const char *path, int flags, ...) {
    static int (*next)(const char *, int, ...);
    va_list rest;
    va_start(rest, flags);
    int mode = flags & O_CREAT ? va_arg(rest, int) : 0;
    va_end(rest);
    if (!next)
        next = dlsym(RTLD_NEXT, "open");
    return fails_to_open(path) ? -1 : next(path, flags, mode);
}

int openat(int folder, const char *path, int flags, ...) {
    static int (*next)(int, const char *, int, ...);
    va_list rest;
    va_start(rest, flags);
    int mode = flags & O_CREAT ? va_arg(rest, int) : 0;
    va_end(rest);
    if (!next)
        next = dlsym(RTLD_NEXT, "openat");
    return fails_to_open(path) ? -1 : next(folder, path, flags, mode);
}

ssize_t getdents64(int file, void *entries, size_t most) {
    static ssize_t (*next)(int, void *, size_t);
    if (!next)
        next = dlsym(RTLD_NEXT, "getdents64");
    return fails("list") ? -1 : next(file, entries, most);
}

int statx(int folder, const char *path, int flags, unsigned mask, struct statx *result) {
    static int (*next)(int, const char *, int, unsigned, struct statx *);
    if (!next)
        next = dlsym(RTLD_NEXT, "statx");
    return fails("look") ? -1 : next(folder, path, flags, mask, result);
}
