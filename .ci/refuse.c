// Preloaded into a program, sees each of its requests for memory, and refuses one: the one whose number, from 1, stands in REFUSE.
// Likewise it refuses the thread whose number stands in REFUSE_THREAD. At the program's end it writes five numbers into the file
// that REFUSE_LOG names. They are the requests, those before the first thread was asked for, those that the C library made while it made
// threads, the blocks that weren't given back, and the threads that were joined. Blocks of the C library's own requests don't count, which
// it keeps.
#define _GNU_SOURCE
#include <dlfcn.h>
#include <errno.h>
#include <fcntl.h>
#include <malloc.h>
#include <pthread.h>
#include <stdatomic.h>
#include <stddef.h>
#include <stdio.h>
#include <stdlib.h>
#include <sys/syscall.h>
#include <unistd.h>

// The C library's own function of a name that this file has too.
#define NEXT(name)                                                                                                             \
    ({                                                                                                                         \
        static __typeof__(&name) next;                                                                                         \
        if (!next)                                                                                                             \
            next = (__typeof__(&name))dlsym(RTLD_NEXT, #name);                                                                 \
        next;                                                                                                                  \
    })

#define MOST_KEPT 256

static atomic_long asked, held, threads, joined, asked_in_making;
// The requests before the first thread, once one was asked for.
static atomic_long before = -1;
// Whether the C library is making a thread for this one.
static _Thread_local int is_making __attribute__((tls_model("initial-exec")));
// The blocks that the C library took while it made threads.
static _Atomic(void *) kept[MOST_KEPT];

// Whether this request, which is counted, is the one.
static int is_the_one(atomic_long *count, const char *name) {
    const char *number = getenv(name);
    return atomic_fetch_add(count, 1) + 1 == (number ? atol(number) : 0);
}

static int is_refused(void) {
    if (is_making)
        atomic_fetch_add(&asked_in_making, 1);
    if (!is_the_one(&asked, "REFUSE"))
        return 0;
    errno = ENOMEM;
    return 1;
}

// Puts one block in the place of another among those that the C library keeps. Whether that one is there.
static int is_exchanged(void *old, void *new) {
    for (int i = 0; i < MOST_KEPT; i++) {
        void *found = old;
        if (atomic_compare_exchange_strong(&kept[i], &found, new))
            return 1;
    }
    return 0;
}

static void *taken(void *block) {
    if (block && !(is_making && is_exchanged(NULL, block)))
        atomic_fetch_add(&held, 1);
    return block;
}

static void given_back(void *block) {
    if (block && !is_exchanged(block, NULL))
        atomic_fetch_sub(&held, 1);
}

void *malloc(size_t size) { return is_refused() ? NULL : taken(NEXT(malloc)(size)); }

// Not by its name, since finding that can ask for memory by this very function.
void *calloc(size_t count, size_t size) {
    extern void *__libc_calloc(size_t, size_t);
    return is_refused() ? NULL : taken(__libc_calloc(count, size));
}

void *realloc(void *old, size_t size) {
    if (is_refused())
        return NULL;
    void *block = NEXT(realloc)(old, size);
    // Where a block is to have no bytes, it is freed.
    if (block || !size) {
        given_back(old);
        taken(block);
    }
    return block;
}

int posix_memalign(void **block, size_t alignment, size_t size) {
    if (is_refused())
        return ENOMEM;
    int fault = NEXT(posix_memalign)(block, alignment, size);
    if (!fault)
        taken(*block);
    return fault;
}

void *aligned_alloc(size_t alignment, size_t size) { return is_refused() ? NULL : taken(NEXT(aligned_alloc)(alignment, size)); }

void *memalign(size_t alignment, size_t size) { return is_refused() ? NULL : taken(NEXT(memalign)(alignment, size)); }

void free(void *block) {
    given_back(block);
    NEXT(free)(block);
}

int pthread_create(pthread_t *thread, const pthread_attr_t *attributes, void *(*start)(void *), void *argument) {
    long none = -1;
    atomic_compare_exchange_strong(&before, &none, atomic_load(&asked));
    if (is_the_one(&threads, "REFUSE_THREAD"))
        return EAGAIN;
    is_making = 1;
    int fault = NEXT(pthread_create)(thread, attributes, start, argument);
    is_making = 0;
    return fault;
}

int pthread_join(pthread_t thread, void **answer) {
    int fault = NEXT(pthread_join)(thread, answer);
    if (!fault)
        atomic_fetch_add(&joined, 1);
    return fault;
}

__attribute__((destructor)) static void tell(void) {
    const char *name = getenv("REFUSE_LOG");
    int file = name ? open(name, O_WRONLY | O_CREAT | O_TRUNC, 0600) : -1;
    if (file >= 0) {
        long all = atomic_load(&asked), first = atomic_load(&before);
        dprintf(file, "%ld %ld %ld ", all, first < 0 ? all : first, atomic_load(&asked_in_making));
        dprintf(file, "%ld %ld\n", atomic_load(&held), atomic_load(&joined));
        close(file);
    }
}

// A program may end by this call, which runs no destructors.
void _exit(int status) {
    tell();
    for (;;)
        syscall(SYS_exit_group, status);
}
