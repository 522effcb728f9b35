/* Preloaded before the program: refuses its requests to the system, as its environment asks.
 *
 *   REFUSE_MEMORY=N   the Nth allocation fails
 *   REFUSE_THREAD=N   the Nth thread is not started
 *   REFUSE_READ=N     the Nth read of standard input fails
 *   REFUSE_WRITE=N    the Nth write to standard output fails
 *   NO_WRITE=N        the Nth write to standard output takes no byte
 *   SHORT_READ=1      each read returns one byte
 *   SHORT_WRITE=1     each write takes one byte
 *   REFUSED=FILE      the file is created if something was refused
 */
#define _GNU_SOURCE
#include <dlfcn.h>
#include <errno.h>
#include <fcntl.h>
#include <pthread.h>
#include <stdatomic.h>
#include <stdlib.h>
#include <sys/uio.h>
#include <unistd.h>

struct counter {
    const char *name;
    long at;
    atomic_long seen;
};

static struct counter memory = {.name = "REFUSE_MEMORY"}, threads = {.name = "REFUSE_THREAD"};
static struct counter reads = {.name = "REFUSE_READ"}, writes = {.name = "REFUSE_WRITE"};
static struct counter none = {.name = "NO_WRITE"};
static int short_read, short_write, ready;

__attribute__((constructor)) static void start(void)
{
    struct counter *all[] = {&memory, &threads, &reads, &writes, &none};
    for (int i = 0; i < 5; i++) {
        const char *text = getenv(all[i]->name);
        all[i]->at = text ? atol(text) : 0;
    }
    short_read = getenv("SHORT_READ") != NULL;
    short_write = getenv("SHORT_WRITE") != NULL;
    ready = 1;
}

/* Whether this is the request that is to be refused, for the reason given. */
static int refuses(struct counter *of, int reason)
{
    if (!ready || of->at == 0 || atomic_fetch_add(&of->seen, 1) + 1 != of->at)
        return 0;
    const char *file = getenv("REFUSED");
    if (file)
        close(open(file, O_CREAT | O_WRONLY, 0644));
    errno = reason;
    return 1;
}

#define REAL(result, name, ...) ((result(*)(__VA_ARGS__))dlsym(RTLD_NEXT, #name))

extern void *__libc_malloc(size_t), *__libc_realloc(void *, size_t), *__libc_calloc(size_t, size_t);

void *malloc(size_t size)
{
    return refuses(&memory, ENOMEM) ? NULL : __libc_malloc(size);
}

void *calloc(size_t count, size_t size)
{
    return refuses(&memory, ENOMEM) ? NULL : __libc_calloc(count, size);
}

void *realloc(void *old, size_t size)
{
    return refuses(&memory, ENOMEM) ? NULL : __libc_realloc(old, size);
}

int pthread_create(pthread_t *to, const pthread_attr_t *how, void *(*run)(void *), void *given)
{
    if (refuses(&threads, EAGAIN))
        return EAGAIN;
    return REAL(int, pthread_create, pthread_t *, const pthread_attr_t *, void *(*)(void *), void *)(to, how, run, given);
}

ssize_t read(int from, void *to, size_t most)
{
    if (from == 0 && refuses(&reads, EIO))
        return -1;
    size_t wanted = from == 0 && short_read && most > 1 ? 1 : most;
    return REAL(ssize_t, read, int, void *, size_t)(from, to, wanted);
}

ssize_t write(int to, const void *from, size_t most)
{
    if (to == 1 && refuses(&writes, EIO))
        return -1;
    if (to == 1 && refuses(&none, 0))
        return 0;
    size_t wanted = to == 1 && short_write && most > 1 ? 1 : most;
    return REAL(ssize_t, write, int, const void *, size_t)(to, from, wanted);
}

ssize_t readv(int from, const struct iovec *to, int count)
{
    for (int i = 0; i < count; i++)
        if (to[i].iov_len > 0)
            return read(from, to[i].iov_base, to[i].iov_len);
    return 0;
}

ssize_t writev(int to, const struct iovec *from, int count)
{
    for (int i = 0; i < count; i++)
        if (from[i].iov_len > 0)
            return write(to, from[i].iov_base, from[i].iov_len);
    return 0;
}
