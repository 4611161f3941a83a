/*
 * cut - an input that fails after some bytes: runs a program with a standard input that first gives what stands on this one's,
 * and whose next read fails.
 *
 *     cut PROGRAM < INPUT
 *
 * The input is a pipe that nobody closes and whose reads don't wait: once it is empty, a read fails with EAGAIN.
 */
#include <fcntl.h>
#include <stdio.h>
#include <unistd.h>

int main(int argc, char **argv)
{
    static char bytes[4096];
    ssize_t length = read(STDIN_FILENO, bytes, sizeof bytes);
    int ends[2];

    if (argc != 2 || length < 0 || pipe(ends) != 0 || fcntl(ends[0], F_SETFL, O_NONBLOCK) != 0)
        return 2;
    if (write(ends[1], bytes, (size_t)length) != length || dup2(ends[0], STDIN_FILENO) < 0)
        return 2;
    execv(argv[1], argv + 1);
    perror(argv[1]);
    return 2;
}
