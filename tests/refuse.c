/* Refuses one call of a program to the C library, and counts calls: a library that tests/test_refusals.py preloads.
 *
 * REFUSE_CALL names the call: alloc, read, write or thread. Reads are those of standard input, writes those of standard output.
 * REFUSE_AT is the number of the refused call, from 1 on (0 refuses none). If REFUSE_ON is set, all later calls are refused too.
 * REFUSE_COUNT names a file. When the program ends, it gets a line for each of the four with the number of calls. The lines
 * `bytes` and `peak` follow: the bytes that allocations asked for, and the most held at a time. tests/test_work.py reads all of them.
 * LIMIT is the time limit in seconds (60): SIGALRM ends a program that takes longer.
 */
#define _GNU_SOURCE
#include <dlfcn.h>
#include <errno.h>
#include <malloc.h>
#include <pthread.h>
#include <stdatomic.h>
#include <stdio.h>
#include <stdlib.h>
#include <string.h>
#include <sys/syscall.h>
#include <unistd.h>

enum call { ALLOC, READ, WRITE, THREAD, CALLS };

static const char *const names[CALLS] = {"alloc", "read", "write", "thread"};
static atomic_long calls[CALLS];
static atomic_long bytes;
static atomic_long held;
static atomic_long peak;
static long refused_at;
static int refused_on;
static enum call refused_call = CALLS;
static int has_ended;

static int is_refused(enum call call)
{
    if (has_ended)
        return 0;
    long now = atomic_fetch_add(&calls[call], 1) + 1;
    return call == refused_call && refused_at && (now == refused_at || (refused_on && now > refused_at));
}

__attribute__((constructor)) static void start(void)
{
    const char *call = getenv("REFUSE_CALL"), *at = getenv("REFUSE_AT"), *limit = getenv("LIMIT");
    alarm(limit ? (unsigned)atoi(limit) : 60);
    refused_at = at ? atol(at) : 0;
    refused_on = getenv("REFUSE_ON") != NULL;
    for (enum call it = ALLOC; it < CALLS; it++)
        if (call && strcmp(call, names[it]) == 0)
            refused_call = it;
}

/* A program that starts no thread ends by exit, which calls destructors. */
__attribute__((destructor)) static void tell(void)
{
    const char *path = getenv("REFUSE_COUNT");
    FILE *file;
    has_ended = 1;
    if (!path || !(file = fopen(path, "w")))
        return;
    for (enum call it = ALLOC; it < CALLS; it++)
        fprintf(file, "%s %ld\n", names[it], (long)calls[it]);
    fprintf(file, "bytes %ld\npeak %ld\n", (long)bytes, (long)peak);
    fclose(file);
}

/* Any other ends by this call, which calls none. */
void _exit(int status)
{
    tell();
    syscall(SYS_exit_group, status);
    __builtin_unreachable();
}

/* Whether an allocation of `size` bytes is refused. */
static int is_refused_memory(size_t size)
{
    if (!has_ended)
        atomic_fetch_add(&bytes, (long)size);
    return is_refused(ALLOC);
}

extern void *__libc_malloc(size_t);
extern void *__libc_calloc(size_t, size_t);
extern void *__libc_realloc(void *, size_t);
extern void *__libc_memalign(size_t, size_t);
extern void __libc_free(void *);

/* Memory that is held from now on, if there is any. */
static void *taken(void *memory)
{
    if (!memory)
        return NULL;
    long size = (long)malloc_usable_size(memory);
    long now = atomic_fetch_add(&held, size) + size;
    long most = peak;
    while (most < now && !atomic_compare_exchange_weak(&peak, &most, now))
        ;
    return memory;
}

/* Memory that is no longer held. */
static void gone(void *memory)
{
    if (memory)
        atomic_fetch_sub(&held, (long)malloc_usable_size(memory));
}

/* NULL, and the error, if the allocation is refused. */
#define MEMORY(size, call)                                                                                                             \
    if (is_refused_memory(size)) {                                                                                                     \
        errno = ENOMEM;                                                                                                                \
        return NULL;                                                                                                                   \
    }                                                                                                                                  \
    return taken(call)

void *malloc(size_t size) { MEMORY(size, __libc_malloc(size)); }
void *calloc(size_t count, size_t size) { MEMORY(count * size, __libc_calloc(count, size)); }
void *aligned_alloc(size_t align, size_t size) { MEMORY(size, __libc_memalign(align, size)); }

/* Memory that moves is counted once, at its new place. */
static void *moved(void *old, size_t size)
{
    long before = old ? (long)malloc_usable_size(old) : 0;
    void *new = __libc_realloc(old, size);
    if (new)
        atomic_fetch_sub(&held, before);
    return new;
}

void *realloc(void *old, size_t size) { MEMORY(size, moved(old, size)); }

int posix_memalign(void **out, size_t align, size_t size)
{
    if (is_refused_memory(size))
        return ENOMEM;
    *out = taken(__libc_memalign(align, size));
    return *out ? 0 : ENOMEM;
}

void free(void *memory)
{
    gone(memory);
    __libc_free(memory);
}

/* The function of the C library by this name. */
#define REAL(name) ((__typeof__(name) *)dlsym(RTLD_NEXT, #name))

ssize_t read(int from, void *buffer, size_t size)
{
    if (from == STDIN_FILENO && is_refused(READ)) {
        errno = EIO;
        return -1;
    }
    return REAL(read)(from, buffer, size);
}

ssize_t write(int to, const void *buffer, size_t size)
{
    if (to == STDOUT_FILENO && is_refused(WRITE)) {
        errno = EIO;
        return -1;
    }
    return REAL(write)(to, buffer, size);
}

int pthread_create(pthread_t *thread, const pthread_attr_t *attributes, void *(*body)(void *), void *argument)
{
    return is_refused(THREAD) ? EAGAIN : REAL(pthread_create)(thread, attributes, body, argument);
}
