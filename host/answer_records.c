/* Reads requests from standard input to its end and writes the answer of each to standard output; a last
   part of a request gets the answer to its own length, which is that of code 1. Then it prints on standard
   error how often each code was given. What it has is answered after each read, so that a slow pipe is
   served, and its memory is fixed. A read or a write that fails is one line on standard error and status
   1; the answers that were due are written first. */
#define _POSIX_C_SOURCE 200809L /* read and write */

#include <errno.h>
#include <stddef.h>
#include <stdint.h>
#include <stdio.h>
#include <string.h>
#include <unistd.h>

#include "zanikory.h"

enum { RECORDS = 1024, STANDARD_INPUT = 0, STANDARD_OUTPUT = 1 };

struct code {
    uint8_t number;
    const char *words;
};

static const struct code codes[] = {
    {ZANIKORY_CODE_DONE, "done"},
    {ZANIKORY_CODE_INPUT_LENGTH, "an input has a wrong length"},
    {ZANIKORY_CODE_OUTPUT_LENGTH, "the answer has a wrong length"},
    {ZANIKORY_CODE_UNKNOWN_KIND, "the kind is not 1 to 8"},
    {ZANIKORY_CODE_RESERVED, "a reserved byte, unused number or way is wrong"},
    {ZANIKORY_CODE_INPUT_NOT_FINITE, "an input number is not finite"},
    {ZANIKORY_CODE_PIVOT, "a pivot is at most zero"},
    {ZANIKORY_CODE_ANSWER_NOT_FINITE, "a number of the answer is not finite"},
    {ZANIKORY_CODE_NAN_PIVOT, "a pivot is NaN"},
};

enum { CODES = sizeof codes / sizeof codes[0] };

/* What is read and not answered yet, from its first byte on, and the answers to be written. */
static uint8_t requests[RECORDS * ZANIKORY_REQUEST_SIZE];
static uint8_t answers[RECORDS * ZANIKORY_ANSWER_SIZE];

/* How often each code was given, which is a byte, and what is written so far. */
static unsigned long long tally[256], bytes_written;

/* ---- a signal that arrives in between is no failure: the call is made again */

static ssize_t read_some(uint8_t *to, size_t length)
{
    ssize_t got;
    do
        got = read(STANDARD_INPUT, to, length);
    while (got < 0 && errno == EINTR);
    return got;
}

/* Gives 0 if all is written. */
static int write_all(const uint8_t *from, size_t length)
{
    while (length > 0) {
        ssize_t wrote = write(STANDARD_OUTPUT, from, length);
        if (wrote < 0 && errno == EINTR)
            continue;
        if (wrote <= 0)
            return 1;
        from += wrote;
        length -= (size_t)wrote;
        bytes_written += (unsigned long long)wrote;
    }
    return 0;
}

/* ---- answers */

/* The answer to request i, of the length given, into place i. */
static void answer(size_t i, size_t length)
{
    uint8_t code = zanikory_answer_record(requests + i * ZANIKORY_REQUEST_SIZE, length,
                                          answers + i * ZANIKORY_ANSWER_SIZE, ZANIKORY_ANSWER_SIZE);
    tally[code]++;
}

/* Answers the whole requests among so many bytes, and moves the rest to the front. Gives 0 if all is
   written. */
static int answer_whole(size_t bytes)
{
    size_t whole = bytes / ZANIKORY_REQUEST_SIZE, rest = bytes % ZANIKORY_REQUEST_SIZE;
    for (size_t i = 0; i < whole; i++)
        answer(i, ZANIKORY_REQUEST_SIZE);
    if (whole > 0)
        memcpy(requests, requests + whole * ZANIKORY_REQUEST_SIZE, rest);
    return write_all(answers, whole * ZANIKORY_ANSWER_SIZE);
}

/* ---- what is said on standard error */

/* Only whole answers count as written. */
static int failed(const char *what)
{
    fprintf(stderr, "answer_records: cannot %s: %llu answers written\n", what,
            bytes_written / ZANIKORY_ANSWER_SIZE);
    return 1;
}

static void print_tally(void)
{
    for (size_t i = 0; i < CODES; i++)
        fprintf(stderr, "code %d  %-47s  %llu\n", codes[i].number, codes[i].words,
                tally[codes[i].number]);
}

int main(void)
{
    size_t held = 0;
    for (;;) {
        ssize_t got = read_some(requests + held, sizeof requests - held);
        if (got < 0)
            return failed("read");
        if (got == 0)
            break;
        held += (size_t)got;
        if (answer_whole(held) != 0)
            return failed("write");
        held %= ZANIKORY_REQUEST_SIZE;
    }
    if (held > 0) {
        answer(0, held);
        if (write_all(answers, ZANIKORY_ANSWER_SIZE) != 0)
            return failed("write");
    }
    print_tally();
    return 0;
}
