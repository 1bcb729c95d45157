/*
 * A library to be preloaded (LD_PRELOAD), which makes calls of a program fail. For tests/users.py; x86-64 Linux with glibc.
 *
 *     FAILING      faults, each `CALL NUMBER HOW`, separated by semicolons: the NUMBERth call of that name, counted from 1
 *     FAILING_LOG  a file that gets a line `CALL DESCRIPTOR` at each call, -1 where a call has no descriptor
 *
 * HOW is an errno as a number, which the call then fails with; or a word:
 *
 *     before, after   the process is killed before or after the call
 *     stop            the process stops before the call, until it is continued
 *     short           reading and writing take half of the bytes
 *
 * A call that fails is not made, but for close, which closes as the system's does. What libc calls inside itself is not seen.
 */
#define _GNU_SOURCE
#include <dirent.h>
#include <dlfcn.h>
#include <errno.h>
#include <fcntl.h>
#include <pthread.h>
#include <signal.h>
#include <stdarg.h>
#include <stdio.h>
#include <stdlib.h>
#include <string.h>
#include <sys/file.h>
#include <sys/ioctl.h>
#include <sys/resource.h>
#include <sys/stat.h>
#include <sys/syscall.h>
#include <sys/uio.h>
#include <unistd.h>

/* --- the plan --- */

enum how { ERROR, BEFORE, AFTER, STOP, SHORT };

struct fault {
    char call[24];
    long number;
    enum how how;
    int error;
    long seen;
};

static struct fault faults[4];
static unsigned fault_count;
static const char *log_name;
/* What the loader and libc call before the constructor is not counted. */
static int active;

static void read_how(struct fault *f, const char *word)
{
    static const char *const words[] = {"", "before", "after", "stop", "short"};
    unsigned i;
    for (i = 1; i < sizeof words / sizeof *words; i++) {
        if (strcmp(word, words[i]) == 0) {
            f->how = (enum how)i;
            return;
        }
    }
    f->how = ERROR;
    f->error = atoi(word);
}

__attribute__((constructor)) static void read_plan(void)
{
    const char *at = getenv("FAILING");
    log_name = getenv("FAILING_LOG");
    while (at != NULL && *at != '\0' && fault_count < sizeof faults / sizeof *faults) {
        struct fault *f = &faults[fault_count];
        char word[16];
        if (sscanf(at, " %23s %ld %15[a-z0-9]", f->call, &f->number, word) != 3) {
            static const char wrong[] = "failing.c: FAILING is not understood\n";
            syscall(SYS_write, 2, wrong, sizeof wrong - 1);
            _exit(125);
        }
        read_how(f, word);
        fault_count++;
        at = strchr(at, ';');
        at = at == NULL ? NULL : at + 1;
    }
    active = 1;
}

static void keep(const char *call, int descriptor)
{
    char line[48];
    int length = snprintf(line, sizeof line, "%s %d\n", call, descriptor);
    int log = (int)syscall(SYS_openat, AT_FDCWD, log_name, O_WRONLY | O_APPEND | O_CREAT | O_CLOEXEC, 0600);
    if (0 <= log) {
        syscall(SYS_write, log, line, (size_t)length);
        syscall(SYS_close, log);
    }
}

static void kill_self(void)
{
    syscall(SYS_kill, getpid(), SIGKILL);
}

/* The fault that is due at this call, or NULL. Calls keep errno where none is. */
static const struct fault *due(const char *call, int descriptor)
{
    int error = errno;
    unsigned i;
    if (!active) {
        return NULL;
    }
    if (log_name != NULL) {
        keep(call, descriptor);
    }
    for (i = 0; i < fault_count; i++) {
        struct fault *f = &faults[i];
        if (strcmp(call, f->call) == 0 && __sync_add_and_fetch(&f->seen, 1) == f->number) {
            if (f->how == BEFORE) {
                kill_self();
            }
            if (f->how == STOP) {
                syscall(SYS_kill, getpid(), SIGSTOP);
            }
            errno = error;
            return f;
        }
    }
    errno = error;
    return NULL;
}

static void over(const struct fault *f)
{
    if (f != NULL && f->how == AFTER) {
        kill_self();
    }
}

static int fails(const struct fault *f)
{
    if (f == NULL || f->how != ERROR) {
        return 0;
    }
    errno = f->error;
    return 1;
}

static size_t bytes(const struct fault *f, size_t count)
{
    return f != NULL && f->how == SHORT && 1 < count ? count / 2 : count;
}

/* --- the calls --- */

/* The call of this name that comes after the one here. ISO C has no cast from void * to a function. */
#define FIND(real, name) \
    do { \
        if (real == NULL) { \
            *(void **)&real = dlsym(RTLD_NEXT, name); \
        } \
    } while (0)

#define CALL(type, name, parameters, arguments, descriptor, failed) \
    type name parameters; \
    type name parameters \
    { \
        static type(*real) parameters; \
        const struct fault *f = due(#name, descriptor); \
        type result; \
        if (fails(f)) { \
            return failed; \
        } \
        FIND(real, #name); \
        result = real arguments; \
        over(f); \
        return result; \
    }

#define ON_DESCRIPTOR(type, name, parameters, arguments) CALL(type, name, parameters, arguments, fd, -1)
#define ON_PATH(type, name, parameters, arguments) CALL(type, name, parameters, arguments, -1, -1)

#define TRANSFER(name, parameters, arguments) ON_DESCRIPTOR(ssize_t, name, parameters, arguments)
TRANSFER(read, (int fd, void *to, size_t count), (fd, to, bytes(f, count)))
TRANSFER(pread, (int fd, void *to, size_t count, off_t at), (fd, to, bytes(f, count), at))
TRANSFER(pread64, (int fd, void *to, size_t count, off64_t at), (fd, to, bytes(f, count), at))
TRANSFER(write, (int fd, const void *from, size_t count), (fd, from, bytes(f, count)))
TRANSFER(pwrite, (int fd, const void *from, size_t count, off_t at), (fd, from, bytes(f, count), at))
TRANSFER(pwrite64, (int fd, const void *from, size_t count, off64_t at), (fd, from, bytes(f, count), at))

ON_DESCRIPTOR(int, fsync, (int fd), (fd))
ON_DESCRIPTOR(int, fdatasync, (int fd), (fd))
ON_DESCRIPTOR(int, fchmod, (int fd, mode_t mode), (fd, mode))
ON_DESCRIPTOR(int, ftruncate, (int fd, off_t length), (fd, length))
ON_DESCRIPTOR(int, ftruncate64, (int fd, off64_t length), (fd, length))
ON_DESCRIPTOR(int, flock, (int fd, int operation), (fd, operation))
ON_DESCRIPTOR(int, dup, (int fd), (fd))
ON_DESCRIPTOR(off_t, lseek, (int fd, off_t at, int whence), (fd, at, whence))
ON_DESCRIPTOR(off64_t, lseek64, (int fd, off64_t at, int whence), (fd, at, whence))
ON_DESCRIPTOR(int, fstat, (int fd, struct stat *to), (fd, to))
ON_DESCRIPTOR(int, fstat64, (int fd, struct stat64 *to), (fd, to))
CALL(int, isatty, (int fd), (fd), fd, 0)
CALL(DIR *, fdopendir, (int fd), (fd), fd, NULL)

ON_PATH(int, rename, (const char *from, const char *to), (from, to))
ON_PATH(int, renameat, (int a, const char *from, int b, const char *to), (a, from, b, to))
ON_PATH(int, renameat2, (int a, const char *from, int b, const char *to, unsigned flags), (a, from, b, to, flags))
ON_PATH(int, link, (const char *from, const char *to), (from, to))
ON_PATH(int, linkat, (int a, const char *from, int b, const char *to, int flags), (a, from, b, to, flags))
ON_PATH(int, unlink, (const char *path), (path))
ON_PATH(int, unlinkat, (int at, const char *path, int flags), (at, path, flags))
ON_PATH(int, mkdir, (const char *path, mode_t mode), (path, mode))
ON_PATH(int, mkdirat, (int at, const char *path, mode_t mode), (at, path, mode))
ON_PATH(int, rmdir, (const char *path), (path))
ON_PATH(int, chmod, (const char *path, mode_t mode), (path, mode))
ON_PATH(ssize_t, readlink, (const char *path, char *to, size_t count), (path, to, count))
ON_PATH(int, stat, (const char *path, struct stat *to), (path, to))
ON_PATH(int, lstat, (const char *path, struct stat *to), (path, to))
ON_PATH(int, stat64, (const char *path, struct stat64 *to), (path, to))
ON_PATH(int, lstat64, (const char *path, struct stat64 *to), (path, to))
ON_PATH(int, fstatat64, (int at, const char *path, struct stat64 *to, int flags), (at, path, to, flags))
ON_PATH(int, statx, (int at, const char *path, int flags, unsigned mask, struct statx *to), (at, path, flags, mask, to))
ON_PATH(int, mkstemp, (char *name), (name))
ON_PATH(int, mkstemp64, (char *name), (name))
ON_PATH(int, getrlimit, (__rlimit_resource_t what, struct rlimit *to), (what, to))
ON_PATH(int, setrlimit, (__rlimit_resource_t what, const struct rlimit *to), (what, to))
ON_PATH(int, getrlimit64, (__rlimit_resource_t what, struct rlimit64 *to), (what, to))
ON_PATH(int, setrlimit64, (__rlimit_resource_t what, const struct rlimit64 *to), (what, to))
CALL(DIR *, opendir, (const char *path), (path), -1, NULL)
CALL(struct dirent *, readdir, (DIR *folder), (folder), -1, NULL)
CALL(struct dirent64 *, readdir64, (DIR *folder), (folder), -1, NULL)
CALL(char *, getcwd, (char *to, size_t count), (to, count), -1, NULL)
CALL(char *, realpath, (const char *path, char *to), (path, to), -1, NULL)
CALL(int, pthread_create, (pthread_t *to, const pthread_attr_t *with, void *(*start)(void *), void *given), (to, with, start, given), -1,
     f->error)

ssize_t writev(int fd, const struct iovec *parts, int count)
{
    static ssize_t (*real)(int, const struct iovec *, int);
    const struct fault *f = due("writev", fd);
    struct iovec first;
    ssize_t result;
    if (fails(f)) {
        return -1;
    }
    FIND(real, "writev");
    if (f != NULL && f->how == SHORT && 0 < count) {
        first = parts[0];
        first.iov_len = bytes(f, first.iov_len);
        return real(fd, &first, 1);
    }
    result = real(fd, parts, count);
    over(f);
    return result;
}

int close(int fd)
{
    static int (*real)(int);
    const struct fault *f = due("close", fd);
    int result;
    FIND(real, "close");
    result = real(fd);
    over(f);
    return fails(f) ? -1 : result;
}

/* --- calls with an argument that may be missing: taking it is harmless on this machine --- */

#define LAST(type, after, into) \
    va_list rest; \
    type into; \
    va_start(rest, after); \
    into = va_arg(rest, type); \
    va_end(rest)

#define OPEN(name, parameters, types, arguments) \
    int name parameters \
    { \
        static int(*real) types; \
        const struct fault *f = due(#name, -1); \
        int result; \
        LAST(unsigned, flags, mode); \
        if (fails(f)) { \
            return -1; \
        } \
        FIND(real, #name); \
        result = real arguments; \
        over(f); \
        return result; \
    }

OPEN(open, (const char *path, int flags, ...), (const char *, int, ...), (path, flags, mode))
OPEN(open64, (const char *path, int flags, ...), (const char *, int, ...), (path, flags, mode))
OPEN(openat, (int at, const char *path, int flags, ...), (int, const char *, int, ...), (at, path, flags, mode))
OPEN(openat64, (int at, const char *path, int flags, ...), (int, const char *, int, ...), (at, path, flags, mode))

#define CONTROL(name, request) \
    int name(int fd, request what, ...); \
    int name(int fd, request what, ...) \
    { \
        static int (*real)(int, request, ...); \
        const struct fault *f = due(#name, fd); \
        int result; \
        LAST(void *, what, argument); \
        if (fails(f)) { \
            return -1; \
        } \
        FIND(real, #name); \
        result = real(fd, what, argument); \
        over(f); \
        return result; \
    }

CONTROL(fcntl, int)
CONTROL(fcntl64, int)
CONTROL(ioctl, unsigned long)

/* A program that calls the system itself is seen where it renames without replacing. */
long syscall(long number, ...)
{
    static long (*real)(long, ...);
    long a[6];
    va_list rest;
    const struct fault *f = NULL;
    long result;
    unsigned i;
    va_start(rest, number);
    for (i = 0; i < 6; i++) {
        a[i] = va_arg(rest, long);
    }
    va_end(rest);
    if (number == SYS_renameat2) {
        f = due("renameat2", -1);
    }
    if (fails(f)) {
        return -1;
    }
    FIND(real, "syscall");
    result = real(number, a[0], a[1], a[2], a[3], a[4], a[5]);
    over(f);
    return result;
}

/* --- memory: by libc's own names, since dlsym may ask for memory --- */

void *__libc_malloc(size_t size);
void *__libc_calloc(size_t count, size_t size);
void *__libc_realloc(void *from, size_t size);

void *malloc(size_t size)
{
    return fails(due("malloc", -1)) ? NULL : __libc_malloc(size);
}

void *calloc(size_t count, size_t size)
{
    return fails(due("calloc", -1)) ? NULL : __libc_calloc(count, size);
}

void *realloc(void *from, size_t size)
{
    return fails(due("realloc", -1)) ? NULL : __libc_realloc(from, size);
}
