/* Preloaded before a program: counts its calls of the system by kind, and makes one of them fail, or all from that one
   on, or all for a while.

   FAIL_COUNTS   a file of 16 numbers of 8 bytes, which is shared: how many calls of each kind were made, in the order of
                 `enum kind`, and last how many were made to fail
   FAIL_UNDER    open, pread, pwrite, fsync, fdatasync and ftruncate count for paths that begin so
   FAIL_KIND     the number of the kind that fails
   FAIL_AT       the number of the call of that kind that fails, the first being 1
   FAIL_HOW      a number of errno, or `short`: a part is done, or `none`: 0 is answered
   FAIL_ON       where it is set, each later call of the kind fails too
   FAIL_FOR      where it is set, each later call of the kind fails too that comes within so many milliseconds

   read and write count for standard input and standard output alone. */
#define _GNU_SOURCE
#include <dlfcn.h>
#include <errno.h>
#include <fcntl.h>
#include <stdarg.h>
#include <stdlib.h>
#include <string.h>
#include <sys/mman.h>
#include <sys/socket.h>
#include <sys/types.h>
#include <sys/uio.h>
#include <time.h>
#include <unistd.h>

enum kind { OPEN, PREAD, PWRITE, FSYNC, FDATASYNC, FTRUNCATE, READ, WRITE, RECV, SEND, ACCEPT, FAILED = 15 };
enum how { DO, FAIL, PART, NOTHING };

static unsigned long *counts;
static char is_ours[4096];
static const char *under, *how;
static int fails = -1;
static unsigned long at, until;

#define NEXT(type, name) ((type (*)())dlsym(RTLD_NEXT, name))

__attribute__((constructor)) static void begin(void) {
    const char *path = getenv("FAIL_COUNTS"), *kind = getenv("FAIL_KIND"), *number = getenv("FAIL_AT");
    int (*open_file)(const char *, int, ...) = (int (*)(const char *, int, ...))dlsym(RTLD_NEXT, "open");
    int (*close_file)(int) = (int (*)(int))dlsym(RTLD_NEXT, "close");
    int file = path == NULL ? -1 : open_file(path, O_RDWR);
    if (file < 0) return;
    void *shared = mmap(NULL, 16 * sizeof *counts, PROT_READ | PROT_WRITE, MAP_SHARED, file, 0);
    close_file(file);
    if (shared == MAP_FAILED) return;
    under = getenv("FAIL_UNDER");
    how = getenv("FAIL_HOW");
    if (kind != NULL && number != NULL && how != NULL) {
        fails = atoi(kind);
        at = strtoul(number, NULL, 10);
    }
    counts = shared;
}

/* The time in milliseconds since some moment. */
static unsigned long now(void) {
    struct timespec time;
    clock_gettime(CLOCK_MONOTONIC, &time);
    return 1000ul * time.tv_sec + time.tv_nsec / 1000000;
}

/* Whether a call fails that comes later than the first that does. */
static int fails_later(void) { return getenv("FAIL_ON") != NULL || (until != 0 && now() < until); }

/* Counts a call, and tells what becomes of it. Where it fails, errno is set. */
static enum how called(enum kind kind) {
    if (counts == NULL) return DO;
    unsigned long number = ++counts[kind];
    if ((int)kind != fails || number < at || (number > at && !fails_later())) return DO;
    if (number == at && getenv("FAIL_FOR") != NULL) until = now() + strtoul(getenv("FAIL_FOR"), NULL, 10);
    counts[FAILED]++;
    if (strcmp(how, "short") == 0) return PART;
    if (strcmp(how, "none") == 0) return NOTHING;
    errno = atoi(how);
    return FAIL;
}

static int is_file(int file) { return file >= 0 && file < (int)sizeof is_ours && is_ours[file]; }

/* Half of what was asked for, and at least one byte. */
static size_t part(size_t count) { return count > 1 ? count / 2 : count; }

static int opened(const char *path, int file) {
    if (file >= 0 && file < (int)sizeof is_ours) is_ours[file] = under != NULL && strncmp(path, under, strlen(under)) == 0;
    return file;
}

static int fails_to_open(const char *path) {
    return under != NULL && strncmp(path, under, strlen(under)) == 0 && called(OPEN) == FAIL;
}

int open(const char *path, int flags, ...) {
    va_list rest;
    va_start(rest, flags);
    mode_t mode = flags & (O_CREAT | O_TMPFILE) ? va_arg(rest, mode_t) : 0;
    va_end(rest);
    return fails_to_open(path) ? -1 : opened(path, NEXT(int, "open")(path, flags, mode));
}

int openat(int folder, const char *path, int flags, ...) {
    va_list rest;
    va_start(rest, flags);
    mode_t mode = flags & (O_CREAT | O_TMPFILE) ? va_arg(rest, mode_t) : 0;
    va_end(rest);
    return fails_to_open(path) ? -1 : opened(path, NEXT(int, "openat")(folder, path, flags, mode));
}

int close(int file) {
    if (is_file(file)) is_ours[file] = 0;
    return NEXT(int, "close")(file);
}

ssize_t pread(int file, void *room, size_t count, off_t from) {
    enum how done = is_file(file) ? called(PREAD) : DO;
    if (done == FAIL || done == NOTHING) return done == FAIL ? -1 : 0;
    return NEXT(ssize_t, "pread")(file, room, done == PART ? part(count) : count, from);
}

ssize_t pwrite(int file, const void *bytes, size_t count, off_t to) {
    enum how done = is_file(file) ? called(PWRITE) : DO;
    if (done == FAIL || done == NOTHING) return done == FAIL ? -1 : 0;
    return NEXT(ssize_t, "pwrite")(file, bytes, done == PART ? part(count) : count, to);
}

int fsync(int file) {
    if (is_file(file) && called(FSYNC) == FAIL) return -1;
    return NEXT(int, "fsync")(file);
}

int fdatasync(int file) {
    if (is_file(file) && called(FDATASYNC) == FAIL) return -1;
    return NEXT(int, "fdatasync")(file);
}

int ftruncate(int file, off_t length) {
    if (is_file(file) && called(FTRUNCATE) == FAIL) return -1;
    return NEXT(int, "ftruncate")(file, length);
}

ssize_t read(int file, void *room, size_t count) {
    enum how done = file == 0 ? called(READ) : DO;
    if (done == FAIL || done == NOTHING) return done == FAIL ? -1 : 0;
    return NEXT(ssize_t, "read")(file, room, done == PART ? part(count) : count);
}

ssize_t write(int file, const void *bytes, size_t count) {
    enum how done = file == 1 ? called(WRITE) : DO;
    if (done == FAIL || done == NOTHING) return done == FAIL ? -1 : 0;
    return NEXT(ssize_t, "write")(file, bytes, done == PART ? part(count) : count);
}

ssize_t recv(int peer, void *room, size_t count, int flags) {
    enum how done = called(RECV);
    if (done == FAIL || done == NOTHING) return done == FAIL ? -1 : 0;
    return NEXT(ssize_t, "recv")(peer, room, done == PART ? part(count) : count, flags);
}

ssize_t send(int peer, const void *bytes, size_t count, int flags) {
    enum how done = called(SEND);
    if (done == FAIL || done == NOTHING) return done == FAIL ? -1 : 0;
    return NEXT(ssize_t, "send")(peer, bytes, done == PART ? part(count) : count, flags);
}

/* A part of several pieces is a part of the first. */
ssize_t sendmsg(int peer, const struct msghdr *message, int flags) {
    enum how done = called(SEND);
    if (done == FAIL || done == NOTHING) return done == FAIL ? -1 : 0;
    if (done == PART && message->msg_iovlen > 0)
        return NEXT(ssize_t, "send")(peer, message->msg_iov->iov_base, part(message->msg_iov->iov_len), flags);
    return NEXT(ssize_t, "sendmsg")(peer, message, flags);
}

int accept4(int listener, struct sockaddr *address, socklen_t *length, int flags) {
    if (called(ACCEPT) == FAIL) return -1;
    return NEXT(int, "accept4")(listener, address, length, flags);
}

int open64(const char *path, int flags, ...) __attribute__((alias("open")));
int openat64(int folder, const char *path, int flags, ...) __attribute__((alias("openat")));
ssize_t pread64(int file, void *room, size_t count, off_t from) __attribute__((alias("pread")));
ssize_t pwrite64(int file, const void *bytes, size_t count, off_t to) __attribute__((alias("pwrite")));
int ftruncate64(int file, off_t length) __attribute__((alias("ftruncate")));
