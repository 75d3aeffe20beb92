/* Refuses one growth of memory of the program that this library is loaded before. A growth is a call that takes memory from the C library,
 * or one that starts a thread, which takes memory for its stack; what the C library itself takes while it starts one counts with it.
 *
 * FAULT_GROWTH: the number of the growth that is refused, counted from 1; 0 and -1 refuse none.
 * FAULT_TOLD: a file descriptor that gets one byte for the refusal: 'm' for memory, 't' for a thread. Where FAULT_GROWTH is -1 it gets 's'
 * for each thread that is started.
 * FAULT_MEMORY: a file that is opened in place of /proc/meminfo, if there is one.
 */
#define _GNU_SOURCE
#include <dlfcn.h>
#include <errno.h>
#include <fcntl.h>
#include <pthread.h>
#include <stdarg.h>
#include <stdatomic.h>
#include <stddef.h>
#include <stdlib.h>
#include <string.h>
#include <sys/types.h>
#include <unistd.h>

typedef int make_thread(pthread_t *, const pthread_attr_t *, void *(*)(void *), void *);
typedef int open_file(const char *, int, ...);

extern void *__libc_malloc(size_t);
extern void *__libc_calloc(size_t, size_t);
extern void *__libc_realloc(void *, size_t);
extern void *__libc_memalign(size_t, size_t);

static make_thread *thread_of_the_system;
static open_file *open_of_the_system;
static atomic_long growths;
static long refused;
static int told;
static _Thread_local int is_inside;

/* The program begins after this: what its loader took isn't counted. */
__attribute__((constructor)) static void begin(void) {
    thread_of_the_system = (make_thread *)dlsym(RTLD_NEXT, "pthread_create");
    open_of_the_system = (open_file *)dlsym(RTLD_NEXT, "open");
    told = atoi(getenv("FAULT_TOLD"));
    refused = atol(getenv("FAULT_GROWTH"));
    atomic_store(&growths, 0);
}

static void tell(char letter) {
    if (write(told, &letter, 1) != 1) {
        abort();
    }
}

/* Whether this growth is the one that is refused. */
static int is_refused(char letter, int error) {
    if (is_inside || atomic_fetch_add(&growths, 1) + 1 != refused) {
        return 0;
    }
    tell(letter);
    errno = error;
    return 1;
}

void *malloc(size_t size) {
    return is_refused('m', ENOMEM) ? NULL : __libc_malloc(size);
}

void *calloc(size_t count, size_t size) {
    return is_refused('m', ENOMEM) ? NULL : __libc_calloc(count, size);
}

void *realloc(void *block, size_t size) {
    return is_refused('m', ENOMEM) ? NULL : __libc_realloc(block, size);
}

void *memalign(size_t alignment, size_t size) {
    return is_refused('m', ENOMEM) ? NULL : __libc_memalign(alignment, size);
}

void *aligned_alloc(size_t alignment, size_t size) {
    return memalign(alignment, size);
}

int posix_memalign(void **block, size_t alignment, size_t size) {
    void *taken = memalign(alignment, size);
    if (taken == NULL) {
        return ENOMEM;
    }
    *block = taken;
    return 0;
}

int pthread_create(pthread_t *thread, const pthread_attr_t *how, void *(*run)(void *), void *with) {
    if (is_refused('t', EAGAIN)) {
        return EAGAIN;
    }
    if (refused == -1) {
        tell('s');
    }
    is_inside = 1;
    int answer = thread_of_the_system(thread, how, run, with);
    is_inside = 0;
    return answer;
}

int open(const char *path, int how, ...) {
    va_list more;
    va_start(more, how);
    mode_t mode = how & O_CREAT ? va_arg(more, mode_t) : 0;
    va_end(more);
    const char *other = strcmp(path, "/proc/meminfo") == 0 ? getenv("FAULT_MEMORY") : NULL;
    return open_of_the_system(other != NULL ? other : path, how, mode);
}
