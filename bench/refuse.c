/* Preloaded into a program, it refuses one request for memory: the one whose number REFUSE holds, from 1, of malloc,
   calloc, realloc and aligned_alloc in all threads; or one start of a thread, that whose number REFUSE_THREAD holds. As it
   does so it makes the file that REFUSED names. Where the program ends while it still holds blocks that it was given, the C
   library's own aside, it makes the file that LEFT names. Into the file that STARTED names it writes at the end how many
   threads were started. */
#define _GNU_SOURCE
#include <dlfcn.h>
#include <errno.h>
#include <fcntl.h>
#include <pthread.h>
#include <stdatomic.h>
#include <stddef.h>
#include <stdio.h>
#include <stdlib.h>
#include <sys/syscall.h>
#include <unistd.h>

extern void *__libc_malloc(size_t);
extern void *__libc_calloc(size_t, size_t);
extern void *__libc_realloc(void *, size_t);
extern void *__libc_memalign(size_t, size_t);
extern void __libc_free(void *);
extern void __libc_freeres(void);

typedef int starts(pthread_t *, const pthread_attr_t *, void *(*)(void *), void *);

static atomic_long requests;
static atomic_long threads, started;
static atomic_long held;
static long refused, refused_thread;
static const char *refused_file, *left_file, *started_file;

__attribute__((constructor)) static void begin(void) {
    const char *number = getenv("REFUSE");
    const char *thread = getenv("REFUSE_THREAD");
    refused = number ? atol(number) : 0;
    refused_thread = thread ? atol(thread) : 0;
    refused_file = getenv("REFUSED");
    left_file = getenv("LEFT");
    started_file = getenv("STARTED");
    atomic_store(&requests, 0);
}

static void make(const char *path) {
    if (path)
        close(open(path, O_WRONLY | O_CREAT, 0644));
}

static int is_refused(void) {
    if (atomic_fetch_add(&requests, 1) + 1 != refused)
        return 0;
    make(refused_file);
    errno = ENOMEM;
    return 1;
}

static void *given(void *block) {
    if (block)
        atomic_fetch_add(&held, 1);
    return block;
}

void *malloc(size_t size) { return is_refused() ? NULL : given(__libc_malloc(size)); }
void *calloc(size_t count, size_t size) { return is_refused() ? NULL : given(__libc_calloc(count, size)); }
void *aligned_alloc(size_t alignment, size_t size) {
    return is_refused() ? NULL : given(__libc_memalign(alignment, size));
}

void *realloc(void *old, size_t size) {
    if (is_refused())
        return NULL;
    void *block = __libc_realloc(old, size);
    return old ? block : given(block);
}

void free(void *block) {
    if (block)
        atomic_fetch_sub(&held, 1);
    __libc_free(block);
}

int pthread_create(pthread_t *thread, const pthread_attr_t *attributes, void *(*run)(void *), void *given_to) {
    if (atomic_fetch_add(&threads, 1) + 1 == refused_thread) {
        make(refused_file);
        return EAGAIN;
    }
    int answer = ((starts *)dlsym(RTLD_NEXT, "pthread_create"))(thread, attributes, run, given_to);
    if (answer == 0)
        atomic_fetch_add(&started, 1);
    return answer;
}

static void tell_started(void) {
    int file = open(started_file, O_WRONLY | O_CREAT | O_TRUNC, 0644);
    dprintf(file, "%ld\n", atomic_load(&started));
    close(file);
}

void _exit(int status) {
    if (started_file)
        tell_started();
    __libc_freeres();
    if (atomic_load(&held) != 0)
        make(left_file);
    syscall(SYS_exit_group, status);
    for (;;)
        ;
}
