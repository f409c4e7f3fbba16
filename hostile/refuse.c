/* Loaded before a program (LD_PRELOAD): counts its requests for memory, and refuses the one whose number the variable REFUSE_AT gives.
   At the end the number of requests is written to the file that REFUSE_COUNT names. */
#include <errno.h>
#include <stdio.h>
#include <stdlib.h>

extern void *__libc_malloc(size_t size);
extern void *__libc_calloc(size_t count, size_t size);
extern void *__libc_realloc(void *old, size_t size);

static unsigned long requests;
static unsigned long refused_request;

__attribute__((constructor)) static void read_number(void)
{
    const char *number = getenv("REFUSE_AT");
    refused_request = number ? strtoul(number, NULL, 10) : 0;
    requests = 0;
}

static int is_refused(void)
{
    requests += 1;
    if (requests != refused_request)
        return 0;
    errno = ENOMEM;
    return 1;
}

void *malloc(size_t size)
{
    return is_refused() ? NULL : __libc_malloc(size);
}

void *calloc(size_t count, size_t size)
{
    return is_refused() ? NULL : __libc_calloc(count, size);
}

void *realloc(void *old, size_t size)
{
    return is_refused() ? NULL : __libc_realloc(old, size);
}

__attribute__((destructor)) static void write_count(void)
{
    const char *path = getenv("REFUSE_COUNT");
    unsigned long count = requests;
    refused_request = 0;
    FILE *file = path ? fopen(path, "w") : NULL;
    if (file) {
        fprintf(file, "%lu\n", count);
        fclose(file);
    }
}
