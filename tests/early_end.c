/* Ends a file early. Loaded before a program, it lets each read at an offset find the end of the file at the offset END, whatever
 * length the system reports: so it is where a file becomes shorter after it was opened.
 *
 *     cc -shared -fPIC -o early_end.so early_end.c
 *     END=83 LD_PRELOAD=./early_end.so bin/ncdump samples/stations.nc
 */
#define _GNU_SOURCE
#include <stdlib.h>
#include <sys/syscall.h>
#include <sys/types.h>
#include <unistd.h>

static off_t end; /* where files end */

/* Reads from the offset on, but nothing from the end on. */
static ssize_t read_up_to_end(int file, void *into, size_t size, off_t at)
{
    size_t left = at < end ? (size_t)(end - at) : 0;

    return syscall(SYS_pread64, file, into, size < left ? size : left, at);
}

ssize_t pread(int file, void *into, size_t size, off_t at)
{
    return read_up_to_end(file, into, size, at);
}

ssize_t pread64(int file, void *into, size_t size, off_t at)
{
    return read_up_to_end(file, into, size, at);
}

/* Runs before the program's main. */
__attribute__((constructor)) static void begin(void)
{
    const char *number = getenv("END");

    end = number ? strtoll(number, NULL, 10) : 0;
}
