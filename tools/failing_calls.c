/* Put before a program by LD_PRELOAD, it lets calls of one kind fail: allocations, reads of descriptor 0, writes of
   descriptor 1, or starts of threads. Several threads may call at once. built_program.py compiles and uses it. Its words
   come by the environment:
     FAILING_KIND   memory, read, write or thread
     FAILING_FROM   the number of the first call that fails; calls of the kind are counted from 1 on
     FAILING_EVERY  0: that call alone; K: each K-th call from it on
     FAILING_ERROR  errno of a read or write that fails
     FAILING_PIECE  the most bytes that a read of descriptor 0 or a write of descriptor 1 moves, 0: as many as are asked for
     FAILING_TOLD   a descriptor of two longs, into which the calls of the kind and those that failed are counted */
#define _GNU_SOURCE
#include <dlfcn.h>
#include <errno.h>
#include <pthread.h>
#include <stdlib.h>
#include <string.h>
#include <sys/mman.h>
#include <sys/syscall.h>
#include <unistd.h>

extern void *__libc_malloc(size_t);
extern void *__libc_calloc(size_t, size_t);
extern void *__libc_realloc(void *, size_t);
extern void *__libc_memalign(size_t, size_t);

static struct { long made, failed; } nowhere, *told = &nowhere;
static const char *failing_kind = "";
typedef int start_thread(pthread_t *, const pthread_attr_t *, void *(*)(void *), void *);
static start_thread *start;
static long first, every, error, piece;

static long number(const char *name)
{
    const char *text = getenv(name);
    return text ? atol(text) : 0;
}

/* Nothing is counted, and nothing fails, before this. */
__attribute__((constructor)) static void begin(void)
{
    void *place = mmap(NULL, sizeof nowhere, PROT_READ | PROT_WRITE, MAP_SHARED, number("FAILING_TOLD"), 0);
    if (place != MAP_FAILED)
        told = place;
    first = number("FAILING_FROM");
    every = number("FAILING_EVERY");
    error = number("FAILING_ERROR");
    piece = number("FAILING_PIECE");
    start = (start_thread *)dlsym(RTLD_NEXT, "pthread_create");
    failing_kind = getenv("FAILING_KIND") ? getenv("FAILING_KIND") : "";
}

static int fails(const char *kind)
{
    if (strcmp(kind, failing_kind))
        return 0;
    long behind = __atomic_add_fetch(&told->made, 1, __ATOMIC_SEQ_CST) - first;
    int does = first > 0 && (behind == 0 || (behind > 0 && every > 0 && behind % every == 0));
    __atomic_add_fetch(&told->failed, does, __ATOMIC_SEQ_CST);
    return does;
}

static int is_refused(void)
{
    if (!fails("memory"))
        return 0;
    errno = ENOMEM;
    return 1;
}

void *malloc(size_t size)
{
    return is_refused() ? NULL : __libc_malloc(size);
}

void *calloc(size_t count, size_t size)
{
    return is_refused() ? NULL : __libc_calloc(count, size);
}

void *realloc(void *block, size_t size)
{
    return is_refused() ? NULL : __libc_realloc(block, size);
}

void *aligned_alloc(size_t alignment, size_t size)
{
    return is_refused() ? NULL : __libc_memalign(alignment, size);
}

void *memalign(size_t alignment, size_t size)
{
    return is_refused() ? NULL : __libc_memalign(alignment, size);
}

int posix_memalign(void **block, size_t alignment, size_t size)
{
    if (is_refused())
        return ENOMEM;
    *block = __libc_memalign(alignment, size);
    return *block ? 0 : ENOMEM;
}

static ssize_t moved(long call, const char *kind, int file, void *bytes, size_t count)
{
    if (fails(kind)) {
        errno = (int)error;
        return -1;
    }
    if (piece > 0 && count > (size_t)piece)
        count = (size_t)piece;
    return syscall(call, file, bytes, count);
}

ssize_t read(int file, void *bytes, size_t count)
{
    return file == 0 ? moved(SYS_read, "read", file, bytes, count) : syscall(SYS_read, file, bytes, count);
}

ssize_t write(int file, const void *bytes, size_t count)
{
    return file == 1 ? moved(SYS_write, "write", file, (void *)bytes, count) : syscall(SYS_write, file, bytes, count);
}

ssize_t __write(int file, const void *bytes, size_t count)
{
    return write(file, bytes, count);
}

int pthread_create(pthread_t *thread, const pthread_attr_t *with, void *(*begin_at)(void *), void *given)
{
    return fails("thread") ? EAGAIN : start(thread, with, begin_at, given);
}
