/* Fails one read of a file, or one write of standard output, of a program, as a broken disk does: the call of the number in FAILS, counted
   from 1, and each behind it. READS names the file as the program opens it; where it is empty writes are meant. PIECE is the most bytes
   that a call takes. It is loaded before the C library (LD_PRELOAD). */
#define _GNU_SOURCE
#include <dlfcn.h>
#include <errno.h>
#include <fcntl.h>
#include <stdarg.h>
#include <stdatomic.h>
#include <stdlib.h>
#include <string.h>
#include <unistd.h>

static atomic_ulong calls;
static atomic_int file = -1;
static unsigned long fails, piece;
static const char *reads;

__attribute__((constructor)) static void begin(void) {
    const char *number = getenv("FAILS"), *most = getenv("PIECE"), *name = getenv("READS");
    fails = number ? strtoul(number, NULL, 10) : 0;
    piece = most ? strtoul(most, NULL, 10) : 1;
    reads = name ? name : "";
}

static int is_failed(void) {
    if (atomic_fetch_add(&calls, 1) + 1 < fails) {
        return 0;
    }
    errno = EIO;
    return 1;
}

#define OPENS(name_of_call)                                                                  \
    int name_of_call(const char *name, int flags, ...) {                                    \
        static int (*next)(const char *, int, ...);                                         \
        va_list rest;                                                                       \
        va_start(rest, flags);                                                              \
        int mode = flags & O_CREAT ? va_arg(rest, int) : 0;                                 \
        va_end(rest);                                                                       \
        if (!next) {                                                                        \
            next = (int (*)(const char *, int, ...))dlsym(RTLD_NEXT, #name_of_call);        \
        }                                                                                   \
        int opened = next(name, flags, mode);                                               \
        if (opened >= 0 && *reads && strcmp(name, reads) == 0) {                            \
            file = opened;                                                                  \
        }                                                                                   \
        return opened;                                                                      \
    }

OPENS(open)
OPENS(open64)

int close(int handle) {
    static int (*next)(int);
    if (!next) {
        next = (int (*)(int))dlsym(RTLD_NEXT, "close");
    }
    int this = handle;
    atomic_compare_exchange_strong(&file, &this, -1);
    return next(handle);
}

ssize_t read(int handle, void *bytes, size_t most) {
    static ssize_t (*next)(int, void *, size_t);
    if (!next) {
        next = (ssize_t(*)(int, void *, size_t))dlsym(RTLD_NEXT, "read");
    }
    if (handle != file) {
        return next(handle, bytes, most);
    }
    return is_failed() ? -1 : next(handle, bytes, most < piece ? most : piece);
}

ssize_t write(int handle, const void *bytes, size_t most) {
    static ssize_t (*next)(int, const void *, size_t);
    if (!next) {
        next = (ssize_t(*)(int, const void *, size_t))dlsym(RTLD_NEXT, "write");
    }
    if (handle != STDOUT_FILENO || *reads) {
        return next(handle, bytes, most);
    }
    return is_failed() ? -1 : next(handle, bytes, most < piece ? most : piece);
}
