/* failing_input PROGRAM < BYTES: runs PROGRAM on an input that has the bytes, at most 4,000, and whose next read fails: the end of a
   pseudo-terminal whose other end was closed gives what was written there, and then an error. */
#define _XOPEN_SOURCE 600
#define _DEFAULT_SOURCE
#include <fcntl.h>
#include <stdio.h>
#include <stdlib.h>
#include <termios.h>
#include <unistd.h>

static int failed(const char *what)
{
    perror(what);
    return 2;
}

int main(int count, char **words)
{
    char bytes[4000];
    struct termios plain;
    size_t n = fread(bytes, 1, sizeof bytes, stdin);
    int input = posix_openpt(O_RDWR | O_NOCTTY);

    if (count != 2 || input < 0 || grantpt(input) != 0 || unlockpt(input) != 0)
        return failed("failing_input");
    int other = open(ptsname(input), O_RDWR | O_NOCTTY);
    if (other < 0 || tcgetattr(other, &plain) != 0)
        return failed("failing_input");
    cfmakeraw(&plain);
    if (tcsetattr(other, TCSANOW, &plain) != 0 || write(other, bytes, n) != (ssize_t)n || close(other) != 0 || dup2(input, 0) != 0)
        return failed("failing_input");
    close(input);
    execl(words[1], words[1], (char *)NULL);
    return failed(words[1]);
}
