/* Refuses requests for memory, calls that open or read a file, threads, and writes to the standard output. Loaded by LD_PRELOAD
   into the unchanged program, it counts the calls of all threads from the program's start on, and lets some of them fail:

       REFUSE_MEMORY=5-5    the fifth request for memory alone; REFUSE_MEMORY=5- is the fifth and each later one
       REFUSE_FILES=3-3     the third call that opens or reads a file
       REFUSE_THREADS=1-    the first thread and each later one
       REFUSE_WRITES=2-2    the second write to the standard output alone
       INTERRUPT_READS=1-1  the first read of the standard input, as if a signal had come
       REFUSE_TOLD=FILE     a line for each call that failed, refused here or not: `memory`, `thread`, `file` and its path, `write` and
                            how many bytes the writes before it took, or `interrupt`; and at the end one with the bytes of memory that were requested

   The functions behind malloc and its kin are called by the C library's own names, so that no look-up is needed; what starts
   a thread is looked up once, at the start. */
#define _GNU_SOURCE
#include <dlfcn.h>
#include <errno.h>
#include <fcntl.h>
#include <limits.h>
#include <pthread.h>
#include <stdarg.h>
#include <stdatomic.h>
#include <stdio.h>
#include <stdlib.h>
#include <sys/syscall.h>
#include <unistd.h>

extern void *__libc_malloc(size_t), *__libc_calloc(size_t, size_t), *__libc_realloc(void *, size_t);
extern void *__libc_memalign(size_t, size_t);

/* The calls of one kind: how many were made, and the first and the last of those that are refused. */
struct calls {
    atomic_ulong made;
    unsigned long first, last;
};

static struct calls requests, reads, threads, writes, interrupts;
static atomic_ulong taken, requested;
static int (*start)(pthread_t *, const pthread_attr_t *, void *(*)(void *), void *);
static const char *told;

static void read_range(struct calls *calls, const char *text) {
    char *rest;
    if (!text) return;
    calls->first = strtoul(text, &rest, 10);
    calls->last = rest[0] && rest[1] ? strtoul(rest + 1, NULL, 10) : ULONG_MAX;
}

__attribute__((constructor)) static void begin(void) {
    told = getenv("REFUSE_TOLD");
    read_range(&requests, getenv("REFUSE_MEMORY"));
    read_range(&reads, getenv("REFUSE_FILES"));
    read_range(&threads, getenv("REFUSE_THREADS"));
    read_range(&writes, getenv("REFUSE_WRITES"));
    read_range(&interrupts, getenv("INTERRUPT_READS"));
    *(void **)&start = dlsym(RTLD_NEXT, "pthread_create");
    atomic_store(&requests.made, 0);
}

static int refuses_next(struct calls *calls) {
    unsigned long number = atomic_fetch_add(&calls->made, 1) + 1;
    return calls->first && calls->first <= number && number <= calls->last;
}

static void tell(const char *what, const char *path) {
    char line[PATH_MAX + 8];
    int file, length = snprintf(line, sizeof line, "%s%s\n", what, path);
    if (!told) return;
    file = syscall(SYS_openat, AT_FDCWD, told, O_WRONLY | O_APPEND | O_CREAT | O_CLOEXEC, 0600);
    if (file < 0 || syscall(SYS_write, file, line, length) != length) abort();
    syscall(SYS_close, file);
}

/* The unchanged program ends by this call, in its first thread. */
void _exit(int status) {
    char bytes[32];
    snprintf(bytes, sizeof bytes, "%lu", atomic_load(&requested));
    tell("requested ", bytes);
    syscall(SYS_exit_group, status);
    __builtin_unreachable();
}

static int refuses_memory(size_t size) {
    atomic_fetch_add(&requested, size);
    if (!refuses_next(&requests)) return 0;
    tell("memory", "");
    errno = ENOMEM;
    return 1;
}

void *malloc(size_t size) { return refuses_memory(size) ? NULL : __libc_malloc(size); }

void *calloc(size_t count, size_t size) { return refuses_memory(count * size) ? NULL : __libc_calloc(count, size); }

void *realloc(void *old, size_t size) { return refuses_memory(size) ? NULL : __libc_realloc(old, size); }

void *memalign(size_t align, size_t size) { return refuses_memory(size) ? NULL : __libc_memalign(align, size); }

void *aligned_alloc(size_t align, size_t size) { return memalign(align, size); }

int posix_memalign(void **at, size_t align, size_t size) {
    void *made = memalign(align, size);
    if (!made) return ENOMEM;
    *at = made;
    return 0;
}

/* The result of a call that opened or read the file of this path; a failure is reported. */
static long done(long gave, const char *path) {
    int why = errno;
    if (gave < 0) tell("file ", path);
    errno = why;
    return gave;
}

int open(const char *path, int flags, ...) {
    va_list rest;
    va_start(rest, flags);
    int mode = flags & (O_CREAT | O_TMPFILE) ? va_arg(rest, int) : 0;
    va_end(rest);
    errno = EIO;
    return done(refuses_next(&reads) ? -1 : syscall(SYS_openat, AT_FDCWD, path, flags, mode), path);
}

ssize_t read(int file, void *to, size_t count) {
    char link[32], path[PATH_MAX] = "";
    if (file == STDIN_FILENO && refuses_next(&interrupts)) {
        tell("interrupt", "");
        errno = EINTR;
        return -1;
    }
    snprintf(link, sizeof link, "/proc/self/fd/%d", file);
    if (readlink(link, path, sizeof path - 1) < 0) path[0] = 0;
    errno = EIO;
    return done(refuses_next(&reads) ? -1 : syscall(SYS_read, file, to, count), path);
}

int pthread_create(pthread_t *thread, const pthread_attr_t *with, void *(*run)(void *), void *on) {
    int why = refuses_next(&threads) ? EAGAIN : start(thread, with, run, on);
    if (why) tell("thread", "");
    return why;
}

ssize_t write(int file, const void *from, size_t count) {
    char before[32];
    long gave;
    if (file != STDOUT_FILENO) return syscall(SYS_write, file, from, count);
    if (!refuses_next(&writes)) {
        gave = syscall(SYS_write, file, from, count);
        if (gave >= 0) atomic_fetch_add(&taken, gave);
        return gave;
    }
    snprintf(before, sizeof before, "%lu", atomic_load(&taken));
    tell("write ", before);
    errno = EIO;
    return -1;
}
