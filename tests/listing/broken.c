/* Runs a program with a standard input that breaks off: some bytes come, and then every read fails, since the pipe is empty but
 * not ended and may not be waited for.
 *
 *   broken FILE PROGRAM WORD..    FILE's bytes, at most 4,096, are those that come */
#include <fcntl.h>
#include <stdio.h>
#include <unistd.h>

int main(int argc, char **argv)
{
    static char bytes[4096];
    int ends[2];
    if (argc < 3 || pipe(ends) != 0)
        return 2;
    int from = open(argv[1], O_RDONLY);
    ssize_t n = read(from, bytes, sizeof bytes);
    if (n < 0 || write(ends[1], bytes, (size_t)n) != n || fcntl(ends[0], F_SETFL, O_NONBLOCK) != 0 || dup2(ends[0], 0) != 0)
        return 2;
    execv(argv[2], argv + 2);
    perror(argv[2]);
    return 2;
}
