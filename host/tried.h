/* A kind of call that a program tries, and how often it was wrong. */
#ifndef TRIED_H
#define TRIED_H

#include <stdio.h>

struct tried {
    const char *what;
    unsigned calls, wrong;
};

static inline struct tried begin(const char *what)
{
    struct tried tried = {what, 0, 0};
    return tried;
}

/* Prints how many there were, and gives 1 if any was wrong. */
static inline int end(const struct tried *tried)
{
    printf("%-58s  %u\n", tried->what, tried->calls);
    return tried->wrong != 0;
}

#endif
