/* Leaves out syncs of the program, for tests that have to see their lack. LEAVE_OUT is
   every    each sync
   before   those before the gate of a change
   behind   those behind it
   The gate is the byte that makes a change in the log count: it alone is written by itself. */
#define _GNU_SOURCE
#include <dlfcn.h>
#include <stdlib.h>
#include <string.h>
#include <sys/types.h>

#define NEXT(type, name) ((type (*)())dlsym(RTLD_NEXT, name))

static int gate_is_last;

static int is_left_out(void) {
    const char *which = getenv("LEAVE_OUT");
    if (!which)
        return 0;
    if (!strcmp(which, "every"))
        return 1;
    return gate_is_last == !strcmp(which, "behind");
}

ssize_t pwrite(int file, const void *bytes, size_t count, off_t at) {
    gate_is_last = count == 1;
    return NEXT(ssize_t, "pwrite")(file, bytes, count, at);
}

ssize_t pwrite64(int file, const void *bytes, size_t count, off_t at) {
    gate_is_last = count == 1;
    return NEXT(ssize_t, "pwrite64")(file, bytes, count, at);
}

int fsync(int file) {
    return is_left_out() ? 0 : NEXT(int, "fsync")(file);
}

int fdatasync(int file) {
    return is_left_out() ? 0 : NEXT(int, "fdatasync")(file);
}
