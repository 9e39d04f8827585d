/* fail: a library to be preloaded. It counts the calls of a program that take memory, read, write, open, sync and rename, and makes
   chosen ones fail as the system may. FAIL is `KIND N` or `KIND N..`: the N-th call of a kind, or each from it on. SHORT is a number:
   no read or write moves more bytes than it says, or where it is above 1000 a number drawn anew from it. COUNTS names a file that
   gets the counts so far after each call, as eight-byte numbers in the order of the kinds. */
#define _GNU_SOURCE
#include <dlfcn.h>
#include <errno.h>
#include <fcntl.h>
#include <stdarg.h>
#include <stdint.h>
#include <stdlib.h>
#include <string.h>
#include <sys/syscall.h>
#include <sys/uio.h>
#include <unistd.h>

enum kind { ALLOC, READ, WRITE, OPEN, SYNC, RENAME, KINDS };
static const char *const names[KINDS] = {"alloc", "read", "write", "open", "sync", "rename"};
static uint64_t counts[KINDS], fail_from, fail_to, shorten, drawn;
static int fail_kind = -1, counts_file = -1, ready;

__attribute__((constructor)) static void begin(void) {
    const char *fail = getenv("FAIL"), *cut = getenv("SHORT"), *file = getenv("COUNTS");
    for (int kind = 0; fail && kind < KINDS; kind++) {
        size_t length = strlen(names[kind]);
        if (strncmp(fail, names[kind], length) == 0 && fail[length] == ' ') {
            char *rest;
            fail_kind = kind;
            fail_from = fail_to = strtoull(fail + length + 1, &rest, 10);
            if (*rest == '.') fail_to = UINT64_MAX;
        }
    }
    if (cut) shorten = drawn = strtoull(cut, NULL, 10);
    if (file) counts_file = (int)syscall(SYS_open, file, O_WRONLY | O_CREAT, 0600);
    ready = 1;
}

/* Whether this call is to fail. */
static int fails(enum kind kind) {
    if (!ready) return 0;
    counts[kind]++;
    if (counts_file >= 0) syscall(SYS_pwrite64, counts_file, counts, sizeof counts, 0);
    return (int)kind == fail_kind && fail_from <= counts[kind] && counts[kind] <= fail_to;
}

static size_t cut(size_t count) {
    size_t most = shorten;
    if (most > 1000) {
        drawn = drawn * 6364136223846793005u + 1442695040888963407u;
        most = 1 + (drawn >> 33) % 7;
    }
    return shorten && count > most ? most : count;
}

extern void *__libc_malloc(size_t), *__libc_calloc(size_t, size_t), *__libc_realloc(void *, size_t), *__libc_memalign(size_t, size_t);

void *malloc(size_t size) {
    if (fails(ALLOC)) { errno = ENOMEM; return NULL; }
    return __libc_malloc(size);
}
void *calloc(size_t count, size_t size) {
    if (fails(ALLOC)) { errno = ENOMEM; return NULL; }
    return __libc_calloc(count, size);
}
void *realloc(void *old, size_t size) {
    if (size && fails(ALLOC)) { errno = ENOMEM; return NULL; }
    return __libc_realloc(old, size);
}
void *aligned_alloc(size_t align, size_t size) {
    if (fails(ALLOC)) { errno = ENOMEM; return NULL; }
    return __libc_memalign(align, size);
}
int posix_memalign(void **to, size_t align, size_t size) {
    if (fails(ALLOC)) return ENOMEM;
    *to = __libc_memalign(align, size);
    return *to ? 0 : ENOMEM;
}

ssize_t read(int file, void *into, size_t count) {
    if (fails(READ)) { errno = EIO; return -1; }
    return syscall(SYS_read, file, into, cut(count));
}
ssize_t write(int file, const void *from, size_t count) {
    if (fails(WRITE)) { errno = EIO; return -1; }
    return syscall(SYS_write, file, from, cut(count));
}
ssize_t __write(int file, const void *from, size_t count) { return write(file, from, count); }
static int opened(int at, const char *name, int flags, int mode) {
    if (fails(OPEN)) { errno = EMFILE; return -1; }
    return (int)syscall(SYS_openat, at, name, flags, mode);
}
#define MODE(flags) int mode = 0; if ((flags) & (O_CREAT | O_TMPFILE)) { va_list rest; va_start(rest, flags); mode = va_arg(rest, int); va_end(rest); }
int open(const char *name, int flags, ...) { MODE(flags) return opened(AT_FDCWD, name, flags, mode); }
int open64(const char *name, int flags, ...) { MODE(flags) return opened(AT_FDCWD, name, flags | O_LARGEFILE, mode); }
int openat(int at, const char *name, int flags, ...) { MODE(flags) return opened(at, name, flags, mode); }
int fsync(int file) {
    if (fails(SYNC)) { errno = EIO; return -1; }
    return (int)syscall(SYS_fsync, file);
}
int fdatasync(int file) {
    if (fails(SYNC)) { errno = EIO; return -1; }
    return (int)syscall(SYS_fdatasync, file);
}
int rename(const char *from, const char *to) {
    if (fails(RENAME)) { errno = EACCES; return -1; }
    return (int)syscall(SYS_rename, from, to);
}
int renameat(int a, const char *from, int b, const char *to) {
    if (fails(RENAME)) { errno = EACCES; return -1; }
    return (int)syscall(SYS_renameat, a, from, b, to);
}
