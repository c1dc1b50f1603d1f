/* Loaded before a program, refuses one of its requests for memory: the one whose number, counted from 1, stands
   in REFUSE; with a + behind the number, all from this one on. A start of a thread counts as a request too, with
   all the memory that it takes. For each the letter m or t, memory or thread, goes to the file descriptor 3. */
#define _GNU_SOURCE
#include <dlfcn.h>
#include <errno.h>
#include <pthread.h>
#include <stdatomic.h>
#include <stdlib.h>
#include <unistd.h>

void *__libc_malloc(size_t size);
void *__libc_calloc(size_t count, size_t size);
void *__libc_realloc(void *block, size_t size);
void *__libc_memalign(size_t align, size_t size);

typedef int start_of_thread(pthread_t *, const pthread_attr_t *, void *(*)(void *), void *);

static unsigned long refused;
static int are_later_refused;
static atomic_ulong requests;
static start_of_thread *start;
static _Thread_local int is_starting;

__attribute__((constructor)) static void begin(void)
{
    start = (start_of_thread *)dlsym(RTLD_NEXT, "pthread_create");
    const char *number = getenv("REFUSE");
    char *behind = "";
    refused = number ? strtoul(number, &behind, 10) : 0;
    are_later_refused = *behind == '+';
}

/* Whether this request is to be refused. */
static int is_refused(const char *letter)
{
    if (refused == 0 || is_starting)
        return 0;
    unsigned long number = atomic_fetch_add(&requests, 1) + 1;
    if (number != refused && !(are_later_refused && number > refused))
        return 0;
    if (write(3, letter, 1) != 1)
        _exit(99);
    errno = ENOMEM;
    return 1;
}

void *malloc(size_t size)
{
    return is_refused("m") ? NULL : __libc_malloc(size);
}

void *calloc(size_t count, size_t size)
{
    return is_refused("m") ? NULL : __libc_calloc(count, size);
}

void *realloc(void *block, size_t size)
{
    return is_refused("m") ? NULL : __libc_realloc(block, size);
}

void *memalign(size_t align, size_t size)
{
    return is_refused("m") ? NULL : __libc_memalign(align, size);
}

void *aligned_alloc(size_t align, size_t size)
{
    return memalign(align, size);
}

int posix_memalign(void **block, size_t align, size_t size)
{
    void *got = memalign(align, size);
    if (!got)
        return ENOMEM;
    *block = got;
    return 0;
}

int pthread_create(pthread_t *thread, const pthread_attr_t *how, void *(*body)(void *), void *with)
{
    if (is_refused("t"))
        return EAGAIN;
    is_starting = 1;
    int answer = start(thread, how, body, with);
    is_starting = 0;
    return answer;
}
