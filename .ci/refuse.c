/* Refuses the allocation of a program whose number REFUSE gives, and writes how many were asked for to the file ALLOCATIONS. */
#include <stdio.h>
#include <stdlib.h>

extern void *__libc_malloc(size_t size);
extern void *__libc_realloc(void *old, size_t size);

static long asked, refused = -1;
static int begun;

static int refuses(void)
{
    return begun && ++asked == refused;
}

void *malloc(size_t size)
{
    return refuses() ? NULL : __libc_malloc(size);
}

void *realloc(void *old, size_t size)
{
    return refuses() ? NULL : __libc_realloc(old, size);
}

__attribute__((constructor)) static void begin(void)
{
    const char *number = getenv("REFUSE");
    refused = number ? atol(number) : -1;
    begun = 1;
}

__attribute__((destructor)) static void end(void)
{
    const char *path = getenv("ALLOCATIONS");
    begun = 0;
    FILE *to = path ? fopen(path, "w") : NULL;
    if (to) {
        fprintf(to, "%ld\n", asked);
        fclose(to);
    }
}
