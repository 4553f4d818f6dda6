/* What opening and reading files takes: reads each file that it is given from its beginning to its end, as the system gives it. */
#include <fcntl.h>
#include <sys/stat.h>
#include <unistd.h>

static char bytes[1 << 16];

int main(int count, char **words)
{
    for (int i = 1; i < count; i++) {
        struct stat about;
        int file = open(words[i], O_RDONLY | O_CLOEXEC);
        if (file < 0 || fstat(file, &about) != 0)
            return 1;
        while (read(file, bytes, sizeof bytes) > 0)
            ;
        close(file);
    }
    return 0;
}
