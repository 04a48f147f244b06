/* Refuses one call of the C library: FAULT=KIND:K, where KIND is alloc, read or write, lets the Kth call of that kind fail, and with
   KIND+ that one and all after it. The number of calls of each kind is written to the file that FAULT_COUNTS names. For faults.py. */
#define _GNU_SOURCE
#include <dlfcn.h>
#include <errno.h>
#include <fcntl.h>
#include <stdio.h>
#include <stdlib.h>
#include <string.h>
#include <unistd.h>

enum { ALLOC, READ, WRITE, KINDS };
static const char *const names[KINDS] = {"alloc", "read", "write"};
static long counts[KINDS], at[KINDS];
static int onward[KINDS], ready;
static void *(*real_malloc)(size_t), *(*real_realloc)(void *, size_t);
static ssize_t (*real_read)(int, void *, size_t), (*real_write)(int, const void *, size_t);

__attribute__((constructor)) static void begin(void) {
    const char *fault = getenv("FAULT");
    real_malloc = dlsym(RTLD_NEXT, "malloc");
    real_realloc = dlsym(RTLD_NEXT, "realloc");
    real_read = dlsym(RTLD_NEXT, "read");
    real_write = dlsym(RTLD_NEXT, "write");
    for (int k = 0; fault && k < KINDS; k++) {
        size_t n = strlen(names[k]);
        if (strncmp(fault, names[k], n)) continue;
        onward[k] = fault[n] == '+';
        at[k] = atol(fault + n + onward[k] + 1);
    }
    ready = 1;
}

__attribute__((destructor)) static void end(void) {
    const char *path = getenv("FAULT_COUNTS");
    int file = path ? open(path, O_WRONLY | O_CREAT | O_TRUNC, 0600) : -1;
    if (file >= 0) dprintf(file, "%ld %ld %ld\n", counts[ALLOC], counts[READ], counts[WRITE]);
}

static int fails(int kind) {
    long k = ready ? ++counts[kind] : 0;
    return at[kind] && (k == at[kind] || (onward[kind] && k > at[kind]));
}

void *malloc(size_t size) {
    if (!real_malloc) real_malloc = dlsym(RTLD_NEXT, "malloc");
    return fails(ALLOC) ? errno = ENOMEM, NULL : real_malloc(size);
}
void *realloc(void *block, size_t size) {
    if (!real_realloc) real_realloc = dlsym(RTLD_NEXT, "realloc");
    return fails(ALLOC) ? errno = ENOMEM, NULL : real_realloc(block, size);
}
ssize_t read(int file, void *to, size_t count) { return fails(READ) ? errno = EIO, -1 : real_read(file, to, count); }
ssize_t write(int file, const void *from, size_t count) { return fails(WRITE) ? errno = EIO, -1 : real_write(file, from, count); }
