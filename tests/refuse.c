/* Refuses one allocation. Loaded before a program, it counts the calls of malloc, calloc and realloc from 1; that of the
 * number REFUSED answers NULL, and all others go through to the C library. As the program ends, it writes how many there were,
 * the sum of the bytes that they asked for, and the most bytes that were held at a time, to the file that ALLOCATIONS names.
 *
 *     cc -shared -fPIC -o refuse.so refuse.c
 *     REFUSED=3 ALLOCATIONS=allocations LD_PRELOAD=./refuse.so bin/ncdump samples/note.nc
 *
 * What is taken before `begin` isn't counted, so the counts are the program's own. It is for programs of one thread. */
#include <errno.h>
#include <malloc.h>
#include <stddef.h>
#include <stdio.h>
#include <stdlib.h>

/* The C library's own functions, by their second names. (To ask dlsym for the next `malloc` may itself take memory.) */
extern void *__libc_malloc(size_t size);
extern void *__libc_calloc(size_t count, size_t size);
extern void *__libc_realloc(void *old, size_t size);
extern void __libc_free(void *block);

static unsigned long refused; /* 0: none */
static unsigned long allocations;
static unsigned long bytes; /* what the allocations asked for, all of them together */
static long held; /* how many bytes the blocks have that weren't given back */
static long most; /* how many they had at a time */

/* Counts a call for this many bytes, and returns true if it is refused. */
static int refuses(size_t size)
{
    allocations++;
    bytes += size;
    if (allocations != refused)
        return 0;
    errno = ENOMEM;
    return 1;
}

/* Counts a block that was taken, and returns it. */
static void *taken(void *block)
{
    held += malloc_usable_size(block);
    if (most < held)
        most = held;
    return block;
}

void *malloc(size_t size)
{
    return refuses(size) ? NULL : taken(__libc_malloc(size));
}

void *calloc(size_t count, size_t size)
{
    return refuses(count * size) ? NULL : taken(__libc_calloc(count, size));
}

void *realloc(void *old, size_t size)
{
    long before = malloc_usable_size(old);
    void *block;

    if (refuses(size))
        return NULL;
    block = __libc_realloc(old, size);
    if (!block && size)
        return NULL;
    held -= before;
    return taken(block);
}

void free(void *block)
{
    held -= malloc_usable_size(block);
    __libc_free(block);
}

/* Runs before the program's main. */
__attribute__((constructor)) static void begin(void)
{
    const char *number = getenv("REFUSED");

    refused = number ? strtoul(number, NULL, 10) : 0;
    allocations = 0;
    bytes = 0;
    held = 0;
    most = 0;
}

/* Runs after it. */
__attribute__((destructor)) static void end(void)
{
    const char *path = getenv("ALLOCATIONS");
    unsigned long all = allocations;
    unsigned long sum = bytes;
    long at_a_time = most;
    FILE *file;

    refused = 0;
    file = path ? fopen(path, "w") : NULL;
    if (file) {
        fprintf(file, "%lu %lu %ld\n", all, sum, at_a_time);
        fclose(file);
    }
}
