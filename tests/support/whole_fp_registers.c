/* Preloaded before user-mode Linux, which sets the registers of floating point of its processes by as many bytes as it
   knows. Newer kernels refuse that (EINVAL) on a processor that has more of them, so those are set to what they are. */
#define _GNU_SOURCE
#include <dlfcn.h>
#include <stdarg.h>
#include <string.h>
#include <sys/ptrace.h>
#include <sys/uio.h>

/* NT_X86_XSTATE of linux/elf.h */
#define XSTATE ((void *)0x202)

long ptrace(enum __ptrace_request request, ...) {
    static long (*real)(int, int, void *, void *);
    static char whole[1 << 16] __attribute__((aligned(64)));
    va_list words;
    va_start(words, request);
    int process = va_arg(words, int);
    void *what = va_arg(words, void *), *data = va_arg(words, void *);
    va_end(words);
    if (!real)
        real = dlsym(RTLD_NEXT, "ptrace");
    if (request != PTRACE_SETREGSET || what != XSTATE)
        return real(request, process, what, data);
    struct iovec *given = data, all = {whole, sizeof whole};
    long got = real(PTRACE_GETREGSET, process, what, &all);
    if (got < 0)
        return got;
    memcpy(whole, given->iov_base, given->iov_len);
    return real(PTRACE_SETREGSET, process, what, &all);
}
