// Preloaded by `check`: makes calls of the C library fail by number. Each variable of the environment is left out, or is
//   FAULT_PIECE  the most bytes that a read or a write moves
//   FAULT_CALL   which calls are counted, from 1 on: `memory` (malloc and realloc), `read`, `write`
//   FAULT_FIRST, FAULT_LAST   the numbers of those that fail
//   FAULT_ERROR  the number of their error; 0: a read or a write that moves no byte
//   FAULT_COUNT  a file that gets the number of counted calls as the process ends
#define _GNU_SOURCE
#include <errno.h>
#include <fcntl.h>
#include <stdio.h>
#include <stdlib.h>
#include <string.h>
#include <sys/syscall.h>
#include <unistd.h>

extern void *__libc_malloc(size_t size);
extern void *__libc_realloc(void *old, size_t size);

static const char *failing = "";
static long first, last, calls;
static int error;
static size_t piece = (size_t)-1;

static long number_in(const char *name, long otherwise) {
    const char *text = getenv(name);
    return text ? atol(text) : otherwise;
}

__attribute__((constructor)) static void begin(void) {
    piece = (size_t)number_in("FAULT_PIECE", -1);
    first = number_in("FAULT_FIRST", 0);
    last = number_in("FAULT_LAST", 0);
    error = (int)number_in("FAULT_ERROR", 0);
    calls = 0;
    failing = getenv("FAULT_CALL") ? getenv("FAULT_CALL") : "";
}

__attribute__((destructor)) static void end(void) {
    const char *path = getenv("FAULT_COUNT");
    if (path == NULL)
        return;
    char text[32];
    int length = snprintf(text, sizeof text, "%ld\n", calls);
    long file = syscall(SYS_open, path, O_WRONLY | O_CREAT | O_TRUNC, 0600);
    syscall(SYS_write, file, text, (size_t)length);
    syscall(SYS_close, file);
}

// A program that may have threads ends by this, and no destructor runs.
void _exit(int status) {
    end();
    syscall(SYS_exit_group, status);
    __builtin_unreachable();
}

static int fails(const char *call) {
    if (strcmp(call, failing) != 0)
        return 0;
    calls++;
    return first <= calls && calls <= last;
}

void *malloc(size_t size) {
    if (fails("memory")) {
        errno = ENOMEM;
        return NULL;
    }
    return __libc_malloc(size);
}

void *realloc(void *old, size_t size) {
    if (fails("memory")) {
        errno = ENOMEM;
        return NULL;
    }
    return __libc_realloc(old, size);
}

static ssize_t fault(void) {
    errno = error;
    return error ? -1 : 0;
}

ssize_t read(int file, void *bytes, size_t size) {
    if (fails("read"))
        return fault();
    return syscall(SYS_read, file, bytes, size < piece ? size : piece);
}

ssize_t write(int file, const void *bytes, size_t size) {
    if (fails("write"))
        return fault();
    return syscall(SYS_write, file, bytes, size < piece ? size : piece);
}

ssize_t __write(int file, const void *bytes, size_t size) {
    return write(file, bytes, size);
}
