/* Put before the C library of a program. With the variable INTERRUPTED set to a number to start from, some
   reads and writes are interrupted before they begin, and the others are of fewer bytes than was asked. With
   READ_AT_MOST or WRITE_AT_MOST set, no read or no write is of more bytes than that. A program that handles
   no signals sees none of this at will in any other way. */
#include <errno.h>
#include <stddef.h>
#include <stdint.h>
#include <unistd.h>

char *getenv(const char *name);
long syscall(long number, ...);

enum { READ = 0, WRITE = 1, MOST = 1000 }; /* the calls' numbers on x86-64, and the most bytes of one */

/* The number that a variable is set to, and 0 if it is not. */
static uint64_t setting(const char *name)
{
    const char *digits = getenv(name);
    uint64_t value = 0;
    while (digits && *digits)
        value = value * 10 + (uint64_t)(*digits++ - '0');
    return value;
}

/* Numbers with no pattern that matters here: the high bits of a multiplication. */
static uint64_t next(void)
{
    static uint64_t state;
    if (state == 0)
        state = setting("INTERRUPTED");
    state = state * 6364136223846793005u + 1442695040888963407u;
    return state >> 33;
}

static ssize_t some(long number, int file, const void *bytes, size_t length, uint64_t at_most)
{
    if (getenv("INTERRUPTED")) {
        if (next() % 4 == 0) {
            errno = EINTR;
            return -1;
        }
        if (length > 1)
            length = 1 + next() % (length < MOST ? length : MOST);
    }
    if (at_most > 0 && at_most < length)
        length = at_most;
    return syscall(number, file, bytes, length);
}

ssize_t read(int file, void *to, size_t length)
{
    return some(READ, file, to, length, setting("READ_AT_MOST"));
}

ssize_t write(int file, const void *from, size_t length)
{
    return some(WRITE, file, from, length, setting("WRITE_AT_MOST"));
}
