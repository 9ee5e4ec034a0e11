/* Stands before the C library's allocator, and refuses requests: the one whose number, from 1, is REFUSE_AT,
   and with REFUSE_ON=1 every later one too. Their number is written to the file that REFUSE_COUNT names.
   Preloaded by run.py beside this file. */
#define _GNU_SOURCE
#include <errno.h>
#include <fcntl.h>
#include <stdio.h>
#include <stdlib.h>
#include <unistd.h>

extern void *__libc_malloc(size_t size);
extern void *__libc_calloc(size_t count, size_t size);
extern void *__libc_realloc(void *block, size_t size);
extern void *__libc_memalign(size_t align, size_t size);

static long requests, refused_at, refused_on;

__attribute__((constructor)) static void begin(void)
{
    const char *at = getenv("REFUSE_AT");
    const char *on = getenv("REFUSE_ON");
    requests = 0;
    refused_at = at ? atol(at) : 0;
    refused_on = on && *on == '1';
}

__attribute__((destructor)) static void end(void)
{
    const char *name = getenv("REFUSE_COUNT");
    char line[32];
    int length, file;
    if (!name)
        return;
    length = snprintf(line, sizeof line, "%ld\n", requests);
    file = open(name, O_WRONLY | O_CREAT | O_TRUNC, 0600);
    if (file >= 0) {
        if (write(file, line, (size_t)length) != length)
            _exit(70);
        close(file);
    }
}

static int refused(void)
{
    requests++;
    if (refused_at == 0 || requests < refused_at)
        return 0;
    return requests == refused_at || refused_on;
}

void *malloc(size_t size)
{
    if (refused()) {
        errno = ENOMEM;
        return NULL;
    }
    return __libc_malloc(size);
}

void *calloc(size_t count, size_t size)
{
    if (refused()) {
        errno = ENOMEM;
        return NULL;
    }
    return __libc_calloc(count, size);
}

void *realloc(void *block, size_t size)
{
    if (size != 0 && refused()) {
        errno = ENOMEM;
        return NULL;
    }
    return __libc_realloc(block, size);
}

void *aligned_alloc(size_t align, size_t size)
{
    if (refused()) {
        errno = ENOMEM;
        return NULL;
    }
    return __libc_memalign(align, size);
}

int posix_memalign(void **block, size_t align, size_t size)
{
    if (refused())
        return ENOMEM;
    *block = __libc_memalign(align, size);
    return *block ? 0 : ENOMEM;
}
