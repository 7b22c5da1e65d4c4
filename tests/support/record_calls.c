/* Preloaded before a program: records what it does to its database's files, and when it answers.

   RECORD_UNDER   the files whose path begins so are recorded
   RECORD_TO      the record, which is made anew

   An entry is 4 numbers of 8 bytes, and then the bytes that were written. The numbers are what was done (`enum done`),
   the file (0 the database, 1 its log, 2 the folder, 3 another, 4 its volume), where, and how many bytes. What failed is not recorded.
   An answer is what went to standard output or to a socket, with its bytes. */
#define _GNU_SOURCE
#include <dlfcn.h>
#include <fcntl.h>
#include <stdarg.h>
#include <stdlib.h>
#include <string.h>
#include <sys/socket.h>
#include <sys/types.h>
#include <sys/uio.h>
#include <unistd.h>

enum done { MADE, WRITTEN, CUT, SYNCED, ANSWERED, REMOVED };
enum file { DATABASE, LOG, FOLDER, OTHER, VOLUME };

static const char *under;
static int record = -1;
static char name_of[4096];

#define NEXT(type, name) ((type (*)())dlsym(RTLD_NEXT, name))

__attribute__((constructor)) static void begin(void) {
    const char *path = getenv("RECORD_TO");
    under = getenv("RECORD_UNDER");
    if (path == NULL || under == NULL) return;
    record = ((int (*)(const char *, int, ...))dlsym(RTLD_NEXT, "open"))(path, O_CREAT | O_TRUNC | O_WRONLY | O_APPEND | O_CLOEXEC, 0600);
}

/* An entry that is cut short makes the whole record worthless, and so the program ends there. */
static void note(enum done done, enum file file, off_t at, const void *bytes, size_t count, size_t length) {
    unsigned long entry[4] = {done, file, (unsigned long)at, length};
    struct iovec pieces[2] = {{entry, sizeof entry}, {(void *)bytes, count}};
    if (record < 0) return;
    if (NEXT(ssize_t, "writev")(record, pieces, 2) != (ssize_t)(sizeof entry + count)) abort();
}

static int is_file(int file) { return file >= 0 && file < (int)sizeof name_of && name_of[file]; }

static enum file file_of(int file) { return (enum file)(name_of[file] - 1); }

static int ends_with(const char *path, const char *end) {
    size_t length = strlen(path), least = strlen(end);
    return length >= least && strcmp(path + length - least, end) == 0;
}

static enum file named(const char *path) {
    if (ends_with(path, ".db")) return DATABASE;
    if (ends_with(path, ".db-wal")) return LOG;
    if (ends_with(path, ".db-volume")) return VOLUME;
    return ends_with(path, "-journal") || ends_with(path, ".db-volume-wal") ? OTHER : FOLDER;
}

static int opened(const char *path, int flags, int file) {
    if (file < 0 || file >= (int)sizeof name_of) return file;
    name_of[file] = 0;
    if (under == NULL || strncmp(path, under, strlen(under)) != 0) return file;
    name_of[file] = (char)(named(path) + 1);
    if ((flags & (O_CREAT | O_EXCL)) == (O_CREAT | O_EXCL)) note(MADE, named(path), 0, NULL, 0, 0);
    return file;
}

int open(const char *path, int flags, ...) {
    va_list rest;
    va_start(rest, flags);
    mode_t mode = flags & (O_CREAT | O_TMPFILE) ? va_arg(rest, mode_t) : 0;
    va_end(rest);
    return opened(path, flags, NEXT(int, "open")(path, flags, mode));
}

int openat(int folder, const char *path, int flags, ...) {
    va_list rest;
    va_start(rest, flags);
    mode_t mode = flags & (O_CREAT | O_TMPFILE) ? va_arg(rest, mode_t) : 0;
    va_end(rest);
    return opened(path, flags, NEXT(int, "openat")(folder, path, flags, mode));
}

static int removed(const char *path, int done) {
    if (done == 0 && under != NULL && strncmp(path, under, strlen(under)) == 0) note(REMOVED, named(path), 0, NULL, 0, 0);
    return done;
}

int unlink(const char *path) { return removed(path, NEXT(int, "unlink")(path)); }

int unlinkat(int folder, const char *path, int flags) { return removed(path, NEXT(int, "unlinkat")(folder, path, flags)); }

int close(int file) {
    if (is_file(file)) name_of[file] = 0;
    return NEXT(int, "close")(file);
}

ssize_t pwrite(int file, const void *bytes, size_t count, off_t to) {
    ssize_t done = NEXT(ssize_t, "pwrite")(file, bytes, count, to);
    if (done > 0 && is_file(file)) note(WRITTEN, file_of(file), to, bytes, (size_t)done, (size_t)done);
    return done;
}

int ftruncate(int file, off_t length) {
    int done = NEXT(int, "ftruncate")(file, length);
    if (done == 0 && is_file(file)) note(CUT, file_of(file), length, NULL, 0, 0);
    return done;
}

int fsync(int file) {
    int done = NEXT(int, "fsync")(file);
    if (done == 0 && is_file(file)) note(SYNCED, file_of(file), 0, NULL, 0, 0);
    return done;
}

int fdatasync(int file) {
    int done = NEXT(int, "fdatasync")(file);
    if (done == 0 && is_file(file)) note(SYNCED, file_of(file), 0, NULL, 0, 0);
    return done;
}

ssize_t write(int file, const void *bytes, size_t count) {
    ssize_t done = NEXT(ssize_t, "write")(file, bytes, count);
    if (done > 0 && file == 1) note(ANSWERED, OTHER, 0, bytes, (size_t)done, (size_t)done);
    return done;
}

ssize_t send(int peer, const void *bytes, size_t count, int flags) {
    ssize_t done = NEXT(ssize_t, "send")(peer, bytes, count, flags);
    if (done > 0) note(ANSWERED, OTHER, 0, bytes, (size_t)done, (size_t)done);
    return done;
}

/* What more than the first piece has is not noted: a reply begins in the first. */
ssize_t sendmsg(int peer, const struct msghdr *message, int flags) {
    ssize_t done = NEXT(ssize_t, "sendmsg")(peer, message, flags);
    size_t first = message->msg_iovlen ? message->msg_iov->iov_len : 0;
    if (first > (size_t)(done > 0 ? done : 0)) first = (size_t)(done > 0 ? done : 0);
    if (done > 0) note(ANSWERED, OTHER, 0, message->msg_iov->iov_base, first, first);
    return done;
}

int open64(const char *path, int flags, ...) __attribute__((alias("open")));
int openat64(int folder, const char *path, int flags, ...) __attribute__((alias("openat")));
ssize_t pwrite64(int file, const void *bytes, size_t count, off_t to) __attribute__((alias("pwrite")));
int ftruncate64(int file, off_t length) __attribute__((alias("ftruncate")));
