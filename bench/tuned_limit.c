/* What a tuned loop takes for the same values as limit.c: four digits at once from a table, the number of digits by the leading zeros, a
 * text for each of the 256 bytes, stores of a fixed length, and a loop for each type. It writes lines of at most 80 bytes through one
 * buffer, whose room it asks for once a number, and reads the file where the system maps it.
 *
 * tuned_limit FILE BEGIN VARIABLES STEP SLABS STRIDE VALUES SIZE SIGNED: as limit.c has it. */
#define _GNU_SOURCE
#include <fcntl.h>
#include <stdint.h>
#include <stdio.h>
#include <stdlib.h>
#include <string.h>
#include <sys/mman.h>
#include <sys/stat.h>

/* the most bytes that a number takes, with what stands before it */
enum { MOST = 64 };

static char quads[40000];
static uint64_t tens[20];
static struct {
    char text[8];
    size_t len;
} bytes_text[256];

static char out[1 << 16];

/* where the next byte goes, and in which column */
struct place {
    char *at;
    size_t column;
};

static char *flush(char *at)
{
    fwrite(out, 1, (size_t)(at - out), stdout);
    return out;
}

static inline size_t len_of(uint64_t n)
{
    size_t guess = (size_t)(64 - __builtin_clzll(n | 1)) * 1233 >> 12;
    return guess + (n >= tens[guess]) + (n == 0);
}

/* the last `len` digits of a number below 10000, of which four are stored */
static inline void put_quad(char *to, size_t len, uint32_t n)
{
    uint32_t quad;
    memcpy(&quad, quads + 4 * n, 4);
    quad >>= 8 * (4 - len);
    memcpy(to, &quad, 4);
}

static inline void put_digits(char *to, size_t len, uint64_t n)
{
    char *end = to + len;
    while (n >= 100000000) {
        uint64_t rest = n / 10000;
        memcpy(end -= 4, quads + 4 * (n - rest * 10000), 4);
        n = rest;
    }
    len = (size_t)(end - to);
    uint32_t low = (uint32_t)n;
    if (len <= 4) {
        put_quad(to, len, low);
        return;
    }
    uint32_t high = low / 10000;
    put_quad(to, len - 4, high);
    memcpy(end - 4, quads + 4 * (low - high * 10000), 4);
}

static inline void put_lead(struct place *to, size_t len)
{
    memcpy(to->at, ", ", 2);
    to->at += 2;
    to->column += 2;
    if (to->column + len + 2 > 80) {
        memcpy(to->at, "\n    ", 5);
        to->at += 5;
        to->column = 4;
    }
    to->column += len;
}

static inline void put_number(struct place *to, int is_negative, uint64_t n)
{
    size_t len = len_of(n);
    put_lead(to, len + (size_t)is_negative);
    *to->at = '-';
    to->at += is_negative;
    put_digits(to->at, len, n);
    to->at += len;
}

static inline void put_signed(struct place *to, int64_t n)
{
    put_number(to, n < 0, n < 0 ? 0 - (uint64_t)n : (uint64_t)n);
}

static inline void put_byte(struct place *to, unsigned char b)
{
    size_t len = bytes_text[b].len;
    put_lead(to, len);
    memcpy(to->at, bytes_text[b].text, 8);
    to->at += len;
}

static inline struct place put_values(struct place to, const unsigned char *from, uint64_t values, int size, int is_signed)
{
    for (uint64_t i = 0; i < values; i++, from += size) {
        if (sizeof out - (size_t)(to.at - out) < MOST)
            to.at = flush(to.at);
        uint16_t two;
        uint32_t four;
        uint64_t eight;
        switch (size) {
        case 1:
            put_byte(&to, *from);
            break;
        case 2:
            memcpy(&two, from, 2);
            two = __builtin_bswap16(two);
            put_signed(&to, is_signed ? (int16_t)two : (int64_t)two);
            break;
        case 4:
            memcpy(&four, from, 4);
            four = __builtin_bswap32(four);
            put_signed(&to, is_signed ? (int32_t)four : (int64_t)four);
            break;
        default:
            memcpy(&eight, from, 8);
            eight = __builtin_bswap64(eight);
            put_number(&to, is_signed && (int64_t)eight < 0, is_signed && (int64_t)eight < 0 ? 0 - eight : eight);
        }
    }
    return to;
}

static struct place put_slab(struct place to, const unsigned char *from, uint64_t values, int size, int is_signed)
{
    switch (size * 2 + is_signed) {
    case 2: return put_values(to, from, values, 1, 0);
    case 3: return put_values(to, from, values, 1, 1);
    case 4: return put_values(to, from, values, 2, 0);
    case 5: return put_values(to, from, values, 2, 1);
    case 8: return put_values(to, from, values, 4, 0);
    case 9: return put_values(to, from, values, 4, 1);
    case 16: return put_values(to, from, values, 8, 0);
    default: return put_values(to, from, values, 8, 1);
    }
}

int main(int count, char **words)
{
    if (count != 10)
        return 2;
    uint64_t given[8];
    for (int i = 0; i < 8; i++)
        given[i] = strtoull(words[i + 2], NULL, 10);
    uint64_t begin = given[0], variables = given[1], step = given[2], slabs = given[3], stride = given[4], values = given[5];
    int size = (int)given[6], is_signed = (int)given[7];
    for (int i = 0; i < 10000; i++) {
        char text[8];
        snprintf(text, sizeof text, "%04d", i);
        memcpy(quads + 4 * i, text, 4);
    }
    tens[0] = 1;
    for (int i = 1; i < 20; i++)
        tens[i] = tens[i - 1] * 10;
    for (int b = 0; b < 256; b++)
        bytes_text[b].len = (size_t)snprintf(bytes_text[b].text, 8, "%d", is_signed ? (int8_t)b : b);
    int file = open(words[1], O_RDONLY);
    struct stat about;
    if (file < 0 || fstat(file, &about))
        return 1;
    unsigned char *bytes = mmap(NULL, (size_t)about.st_size, PROT_READ, MAP_PRIVATE | MAP_POPULATE, file, 0);
    if (bytes == MAP_FAILED)
        return 1;
    struct place to = {out, 4};
    for (uint64_t v = 0; v < variables; v++) {
        to.column = 4;
        for (uint64_t s = 0; s < slabs; s++)
            to = put_slab(to, bytes + begin + v * step + s * stride, values, size, is_signed);
    }
    flush(to.at);
    return 0;
}
