/* Loaded before the C library by bench/faults.py. It counts a program's calls for memory, and its calls of devices (opening,
 * reading, writing, making a folder), and lets one of them fail:
 *
 *     FAIL_MEMORY=3    the third call for memory gets none
 *     FAIL_MEMORY_ON=3 it and all that follow
 *     FAIL_DEVICE=3    the third device call fails, with the error number FAIL_WITH
 *     CUT_DEVICE=3     the third device call, if it moves several bytes, moves one
 *
 * What was counted and done goes to the file FAULTS_TOLD, one word and number a line.
 */
#define _GNU_SOURCE
#include <errno.h>
#include <fcntl.h>
#include <stdarg.h>
#include <stdio.h>
#include <stdlib.h>
#include <string.h>
#include <sys/stat.h>
#include <sys/syscall.h>
#include <unistd.h>

extern void *__libc_malloc(size_t);
extern void *__libc_calloc(size_t, size_t);
extern void *__libc_realloc(void *, size_t);
extern void *__libc_memalign(size_t, size_t);

static long fail_memory, fail_memory_on, fail_device, cut_device, fail_with = EIO;
static long memory_calls, device_calls;
static int counts;
static const char *done = "none";

static long asked(const char *name, long otherwise) {
    const char *text = getenv(name);
    return text ? atol(text) : otherwise;
}

__attribute__((constructor)) static void begin(void) {
    fail_memory = asked("FAIL_MEMORY", 0);
    fail_memory_on = asked("FAIL_MEMORY_ON", 0);
    fail_device = asked("FAIL_DEVICE", 0);
    cut_device = asked("CUT_DEVICE", 0);
    fail_with = asked("FAIL_WITH", EIO);
    counts = 1;
}

__attribute__((destructor)) static void tell(void) {
    const char *path = getenv("FAULTS_TOLD");
    counts = 0;
    if (!path) return;
    char text[128];
    int length = snprintf(text, sizeof text, "memory %ld\ndevice %ld\ndone %s\n", memory_calls, device_calls, done);
    int to = syscall(SYS_openat, AT_FDCWD, path, O_WRONLY | O_CREAT | O_TRUNC, 0600);
    syscall(SYS_write, to, text, length);
    syscall(SYS_close, to);
}

static int has_no_memory(void) {
    if (!counts) return 0;
    memory_calls++;
    int none = memory_calls == fail_memory || (fail_memory_on && memory_calls >= fail_memory_on);
    if (none) {
        done = "memory";
        errno = ENOMEM;
    }
    return none;
}

void *malloc(size_t size) { return has_no_memory() ? 0 : __libc_malloc(size); }
void *calloc(size_t count, size_t size) { return has_no_memory() ? 0 : __libc_calloc(count, size); }
void *realloc(void *old, size_t size) { return has_no_memory() ? 0 : __libc_realloc(old, size); }
void *aligned_alloc(size_t alignment, size_t size) { return has_no_memory() ? 0 : __libc_memalign(alignment, size); }

int posix_memalign(void **to, size_t alignment, size_t size) {
    void *found = has_no_memory() ? 0 : __libc_memalign(alignment, size);
    if (!found) return ENOMEM;
    *to = found;
    return 0;
}

/* Whether this device call fails. The word says what it was for. */
static int fails(const char *word) {
    if (!counts) return 0;
    device_calls++;
    if (device_calls != fail_device) return 0;
    done = word;
    errno = fail_with;
    return 1;
}

static const char *opening(int flags) { return (flags & O_ACCMODE) == O_RDONLY ? "open_to_read" : "open_to_write"; }

int openat(int folder, const char *path, int flags, ...) {
    va_list rest;
    va_start(rest, flags);
    int mode = flags & O_CREAT ? va_arg(rest, int) : 0;
    va_end(rest);
    return fails(opening(flags)) ? -1 : syscall(SYS_openat, folder, path, flags, mode);
}

int open(const char *path, int flags, ...) {
    va_list rest;
    va_start(rest, flags);
    int mode = flags & O_CREAT ? va_arg(rest, int) : 0;
    va_end(rest);
    return fails(opening(flags)) ? -1 : syscall(SYS_openat, AT_FDCWD, path, flags, mode);
}

int mkdir(const char *path, mode_t mode) {
    return fails("make_folder") ? -1 : syscall(SYS_mkdirat, AT_FDCWD, path, mode);
}

/* How many bytes this device call moves. */
static size_t moved(size_t size) {
    if (device_calls != cut_device || size < 2) return size;
    done = "cut";
    return 1;
}

ssize_t read(int from, void *bytes, size_t size) {
    return fails("read") ? -1 : syscall(SYS_read, from, bytes, moved(size));
}

ssize_t write(int to, const void *bytes, size_t size) {
    return fails(to == 1 ? "write_out" : "write_file") ? -1 : syscall(SYS_write, to, bytes, moved(size));
}
