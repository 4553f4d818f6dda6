/* What a plain loop takes for the numbers of a text: reads the text whole; of each number white space, a sign, digits, the range and
 * the comma; packs it big-endian, and writes the bytes.
 *
 * text_limit TEXT OUT SIZE: the text, the file that is made, and the bytes of a value, which has a sign. The lists of the text stand
 * after `data:`, each from ` = ` to a semicolon. */
#include <stdint.h>
#include <stdio.h>
#include <stdlib.h>
#include <string.h>
#include <sys/stat.h>

static int is_space(char c)
{
    return c == ' ' || (c >= '\t' && c <= '\r');
}

static int is_digit(char c)
{
    return c >= '0' && c <= '9';
}

int main(int count, char **words)
{
    if (count != 4)
        return 2;
    int size = atoi(words[3]);
    FILE *file = fopen(words[1], "rb");
    struct stat about;
    if (!file || stat(words[1], &about))
        return 1;
    char *text = malloc((size_t)about.st_size + 1);
    if (!text || fread(text, 1, (size_t)about.st_size, file) != (size_t)about.st_size)
        return 1;
    text[about.st_size] = 0;
    char *at = text;
    FILE *out = fopen(words[2], "wb");
    size_t capacity = 1 << 20, used = 0;
    unsigned char *bytes = malloc(capacity);
    if (!out || !bytes || !(at = strstr(at, "data:")))
        return 1;
    uint64_t line = 1;
    while ((at = strstr(at, " = "))) {
        at += 3;
        for (;;) {
            while (is_space(*at))
                line += *at++ == '\n';
            int minus = 0;
            if (*at == '-') {
                minus = 1;
                at++;
            } else if (*at == '+') {
                at++;
            }
            if (!is_digit(*at))
                return 1;
            uint64_t n = 0;
            for (; is_digit(*at); at++) {
                if (n >= 1ull << 60)
                    return 1;
                n = n * 10 + (uint64_t)(*at - '0');
            }
            if (n > (1ull << (8 * size - 1)) - 1 + (uint64_t)minus)
                return 1;
            if (minus)
                n = 0 - n;
            if (used + 8 > capacity && !(bytes = realloc(bytes, capacity *= 2)))
                return 1;
            for (int i = size - 1; i >= 0; i--)
                bytes[used++] = (unsigned char)(n >> (8 * i));
            while (is_space(*at))
                line += *at++ == '\n';
            char end = *at++;
            if (end == ';')
                break;
            if (end != ',')
                return 1;
        }
    }
    return line == 0 || fwrite(bytes, 1, used, out) != used || fclose(out);
}
