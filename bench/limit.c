/* What a plain loop takes for the same values: reads a file whole, swaps bytes, formats by a table of two digits, and writes
 * lines of at most 80 bytes through one buffer.
 *
 * limit FILE BEGIN VARIABLES STEP SLABS STRIDE VALUES SIZE SIGNED: the file, the offset of the first variable's first value, the
 * number of variables and the bytes from one to the next, the slabs of each and the bytes from one to the next, the values of
 * a slab, the bytes of a value, and whether it has a sign. */
#include <stdint.h>
#include <stdio.h>
#include <stdlib.h>
#include <string.h>
#include <sys/stat.h>

static char pairs[200];
static char out[1 << 16];
static size_t used;

static void flush(void)
{
    fwrite(out, 1, used, stdout);
    used = 0;
}

static int64_t value(const unsigned char *at, int size, int is_signed)
{
    uint64_t n = 0;
    for (int i = 0; i < size; i++)
        n = n << 8 | at[i];
    if (!is_signed || size == 8)
        return (int64_t)n;
    int shift = 64 - 8 * size;
    return (int64_t)(n << shift) >> shift;
}

static size_t digits(char *end, uint64_t n)
{
    char *at = end;
    while (n >= 100) {
        at -= 2;
        memcpy(at, pairs + n % 100 * 2, 2);
        n /= 100;
    }
    if (n >= 10) {
        at -= 2;
        memcpy(at, pairs + n * 2, 2);
    } else {
        *--at = (char)('0' + n);
    }
    return (size_t)(end - at);
}

int main(int count, char **words)
{
    if (count != 10)
        return 2;
    uint64_t given[8];
    for (int i = 0; i < 8; i++)
        given[i] = strtoull(words[i + 2], NULL, 10);
    uint64_t begin = given[0], variables = given[1], step = given[2], slabs = given[3], stride = given[4], values = given[5];
    int size = (int)given[6], is_signed = (int)given[7];
    for (int i = 0; i < 100; i++) {
        pairs[2 * i] = (char)('0' + i / 10);
        pairs[2 * i + 1] = (char)('0' + i % 10);
    }
    FILE *file = fopen(words[1], "rb");
    struct stat about;
    if (!file || stat(words[1], &about))
        return 1;
    unsigned char *bytes = malloc((size_t)about.st_size);
    if (!bytes || fread(bytes, 1, (size_t)about.st_size, file) != (size_t)about.st_size)
        return 1;
    for (uint64_t v = 0; v < variables; v++) {
        size_t column = 4;
        for (uint64_t s = 0; s < slabs; s++) {
            const unsigned char *at = bytes + begin + v * step + s * stride;
            for (uint64_t i = 0; i < values; i++, at += size) {
                char text[24];
                int64_t n = value(at, size, is_signed);
                size_t len = digits(text + 24, n < 0 ? 0 - (uint64_t)n : (uint64_t)n);
                if (n < 0)
                    text[24 - ++len] = '-';
                if (sizeof out - used < 64)
                    flush();
                out[used++] = ',';
                out[used++] = ' ';
                column += 2;
                if (column + len + 2 > 80) {
                    memcpy(out + used, "\n    ", 5);
                    used += 5;
                    column = 4;
                }
                memcpy(out + used, text + 24 - len, len);
                used += len;
                column += len;
            }
        }
    }
    flush();
    return 0;
}
