/* What a tuned loop takes for the numbers of a text, as text_limit.c has them: eight digits at once by multiplication, a loop for each
 * type, and one store for a value.
 *
 * tuned_text_limit TEXT OUT SIZE: as text_limit.c has it. */
#include <stdint.h>
#include <stdio.h>
#include <stdlib.h>
#include <string.h>
#include <sys/stat.h>

static char *at;
static uint64_t line = 1;
static unsigned char *bytes;
static size_t capacity = 1 << 20, used;

static inline int is_space(char c)
{
    return c == ' ' || (c >= '\t' && c <= '\r');
}

static inline void skip_space(void)
{
    while (is_space(*at))
        line += *at++ == '\n';
}

/* Passes at most eight digits, and adds them to n. Returns how many there are. */
static inline int take_digits(uint64_t *n)
{
    static const uint64_t tens[] = {1, 10, 100, 1000, 10000, 100000, 1000000, 10000000, 100000000};
    uint64_t chunk;
    memcpy(&chunk, at, 8);
    chunk ^= 0x3030303030303030;
    uint64_t others = ((chunk + 0x0606060606060606) | chunk) & 0xf0f0f0f0f0f0f0f0;
    int len = others ? __builtin_ctzll(others) >> 3 : 8;
    if (len == 0)
        return 0;
    chunk <<= 64 - 8 * len;
    chunk = chunk * 10 + (chunk >> 8);
    chunk = ((chunk & 0x000000ff000000ff) * 0x000f424000000064 + (chunk >> 16 & 0x000000ff000000ff) * 0x0000271000000001) >> 32;
    *n = *n * tens[len] + chunk;
    at += len;
    return len;
}

static inline void put(uint64_t n, int size)
{
    if (used + 8 > capacity && !(bytes = realloc(bytes, capacity *= 2)))
        exit(1);
    n = __builtin_bswap64(n << (64 - 8 * size));
    memcpy(bytes + used, &n, 8);
    used += (size_t)size;
}

static inline int take_list(int size)
{
    for (;;) {
        skip_space();
        int minus = *at == '-';
        at += minus || *at == '+';
        uint64_t n = 0;
        int len = take_digits(&n);
        if (len == 0)
            return 1;
        for (int all = len; len == 8; all += len) {
            if (all > 16)
                return 1;
            len = take_digits(&n);
        }
        if (n > (1ull << (8 * size - 1)) - 1 + (uint64_t)minus)
            return 1;
        put(minus ? 0 - n : n, size);
        skip_space();
        char end = *at++;
        if (end == ';')
            return 0;
        if (end != ',')
            return 1;
    }
}

int main(int count, char **words)
{
    if (count != 4)
        return 2;
    int size = atoi(words[3]);
    FILE *file = fopen(words[1], "rb");
    struct stat about;
    if (!file || stat(words[1], &about))
        return 1;
    char *text = calloc((size_t)about.st_size + 8, 1);
    if (!text || fread(text, 1, (size_t)about.st_size, file) != (size_t)about.st_size)
        return 1;
    FILE *out = fopen(words[2], "wb");
    bytes = malloc(capacity);
    if (!out || !bytes || !(at = strstr(text, "data:")))
        return 1;
    while ((at = strstr(at, " = "))) {
        at += 3;
        int failed;
        switch (size) {
        case 1: failed = take_list(1); break;
        case 2: failed = take_list(2); break;
        case 4: failed = take_list(4); break;
        default: failed = take_list(8);
        }
        if (failed)
            return 1;
    }
    return line == 0 || fwrite(bytes, 1, used, out) != used || fclose(out);
}
