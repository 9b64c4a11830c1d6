/* Holds what zanikory_tally.h says against the library, where it is more than the proof sees: the header's
   own places, counts and bytes beside what is handed over, and addresses of any alignment; and counts near
   2^64, which no file reaches. One line for each kind of call, with how many were tried; the first that is
   wrong of a kind has a line of its own. Ends with 1 if any is. */
#include <stddef.h>
#include <stdint.h>
#include <stdio.h>
#include <string.h>

#include "tried.h"
#include "zanikory_tally.h"

#define LARGEST 0xFFFFFFFFFFFFFFFFu

/* Counts lie at GUARD, and may be twice as many as is right; bytes lie there or up to seven behind it. */
enum {
    GUARD = 16,
    SIZE = ZANIKORY_TALLY_SIZE,
    ROOM = GUARD + 2 * SIZE + GUARD,
    ANSWER = ZANIKORY_ANSWER_SIZE,
    MOST_BYTES = 4 * ANSWER,
    BYTES_ROOM = GUARD + MOST_BYTES + GUARD
};

static uint64_t counts_room[ROOM], more_room[ROOM]; /* what is handed over, and counts beside it */
static uint64_t counts_left[ROOM];                  /* what must stand there after the call */
static uint8_t bytes_room[BYTES_ROOM];

static uint64_t *const counts = counts_room + GUARD, *const more = more_room + GUARD;
static uint64_t *const left = counts_left + GUARD;

/* ---- a call, and what it must leave */

/* Counts that differ from place to place and from turn to turn, and are far from 2^64. */
static void fill(uint64_t *room, unsigned turn)
{
    for (size_t i = 0; i < ROOM; i++)
        room[i] = i * 1000003u + turn * 101u + 7;
}

static void begin_call(unsigned turn)
{
    fill(counts_room, turn);
    fill(more_room, turn + 1);
    memcpy(counts_left, counts_room, sizeof counts_room);
}

static void zeros(void)
{
    memset(left, 0, SIZE * sizeof left[0]);
}

static void hold(struct tried *tried, uint8_t code, uint8_t expected)
{
    int changed = memcmp(counts_room, counts_left, sizeof counts_room) != 0;
    tried->calls++;
    if (code == expected && !changed)
        return;
    tried->wrong++;
    if (tried->wrong == 1)
        printf("%s: call %u: code %d, expected %d%s\n", tried->what, tried->calls, code, expected,
               changed ? "; the counts, or what lies beside them, are wrong" : "");
}

/* ---- answers */

struct head {
    uint8_t kind, code, rotations, mark;
};

/* So many bytes of answers with this head, at an address of any alignment. */
static uint8_t *answers_with(struct head head, size_t length, unsigned turn)
{
    uint8_t *bytes = bytes_room + GUARD + turn % 8;
    for (size_t i = 0; i < BYTES_ROOM; i++)
        bytes_room[i] = (uint8_t)(i * 37 + turn * 101 + 1);
    for (size_t at = 0; at < length; at += ANSWER) {
        const uint8_t four[4] = {head.kind, head.code, head.rotations, head.mark};
        memcpy(bytes + at + ZANIKORY_ANSWER_KIND_AT, four, length - at < 8 ? 0 : sizeof four);
    }
    return bytes;
}

/* ---- where a head is counted, by the words of the header */

struct places {
    size_t many, at[3];
};

static int is_foreign(struct head head)
{
    int turning = head.kind == 2 || head.kind == 4;
    if (head.code > 9 || head.code == 2 || head.code == 8)
        return 1;
    return head.code == 0 &&
           (head.kind < 1 || head.kind > 8 || head.mark > 1 || head.rotations > (turning ? 25 : 0));
}

static struct places places_of(struct head head)
{
    static const uint8_t columns[10] = {ZANIKORY_TALLY_CODE_0, ZANIKORY_TALLY_CODE_1, 0,
                                        ZANIKORY_TALLY_CODE_3, ZANIKORY_TALLY_CODE_4, ZANIKORY_TALLY_CODE_5,
                                        ZANIKORY_TALLY_CODE_6, ZANIKORY_TALLY_CODE_7, 0,
                                        ZANIKORY_TALLY_CODE_9};
    size_t row = head.kind > 8 ? ZANIKORY_TALLY_OTHER_ROW : head.kind;
    struct places places = {1, {ZANIKORY_TALLY_FOREIGN_AT, 0, 0}};
    if (is_foreign(head))
        return places;
    places.at[0] = ZANIKORY_TALLY_AT(row, columns[head.code]);
    if (head.code != 0)
        return places;
    places.at[places.many++] =
        ZANIKORY_TALLY_AT(row, head.mark ? ZANIKORY_TALLY_SETTLED : ZANIKORY_TALLY_UNSETTLED);
    if (head.kind == 2)
        places.at[places.many++] = ZANIKORY_TALLY_ROTATIONS_2_AT(head.rotations);
    if (head.kind == 4)
        places.at[places.many++] = ZANIKORY_TALLY_ROTATIONS_4_AT(head.rotations);
    return places;
}

static void count(struct head head, uint64_t times)
{
    struct places places = places_of(head);
    for (size_t i = 0; i < places.many; i++)
        left[places.at[i]] += times;
}

/* ---- wrong lengths */

/* The five calls, with counts and a second array of any length. */
enum call { CLEAR, RECORD, FILE_MORE, FILE_ALONE, ADD, CALLS };

static uint8_t called(enum call call, size_t n, const uint8_t *bytes, size_t length)
{
    switch (call) {
    case CLEAR: return zanikory_tally_clear(counts, n);
    case RECORD: return zanikory_tally_record(counts, n, bytes, length);
    case FILE_MORE: return zanikory_tally_file(counts, n, bytes, length);
    case FILE_ALONE: return zanikory_tally_of(counts, n, bytes, length);
    default: return zanikory_tally_add(counts, n, more, length);
    }
}

static int lengths(void)
{
    static const struct head head = {2, 0, 7, 1};
    struct tried two = begin("2: counts of another number stay");
    struct tried one = begin("1: an answer, or more counts, of another length");
    for (enum call call = CLEAR; call < CALLS; call++)
        for (size_t length = 0; length <= 2 * SIZE; length++) {
            uint8_t *bytes = answers_with(head, ANSWER, (unsigned)length);
            size_t right = call == ADD ? SIZE : ANSWER;
            begin_call((unsigned)length);
            if (length != SIZE) {
                hold(&two, called(call, length, bytes, right), ZANIKORY_CODE_OUTPUT_LENGTH);
                hold(&two, called(call, length, bytes, 0), ZANIKORY_CODE_OUTPUT_LENGTH);
            }
            if ((call == RECORD || call == ADD) && length != right)
                hold(&one, called(call, SIZE, bytes, length), ZANIKORY_CODE_INPUT_LENGTH);
        }
    return end(&two) + end(&one);
}

static int cleared(void)
{
    struct tried tried = begin("0: the empty tally");
    for (unsigned turn = 0; turn < 8; turn++) {
        begin_call(turn);
        zeros();
        hold(&tried, zanikory_tally_clear(counts, SIZE), ZANIKORY_CODE_DONE);
    }
    return end(&tried);
}

/* ---- one answer more */

static void record(struct tried *tried, struct head head)
{
    uint8_t *bytes = answers_with(head, ANSWER, tried->calls);
    begin_call(tried->calls);
    count(head, 1);
    hold(tried, zanikory_tally_record(counts, SIZE, bytes, ANSWER), ZANIKORY_CODE_DONE);
}

/* Each byte of a head with all that it can be, and then all bytes on both sides of what is known. */
static int records(void)
{
    static const uint8_t kinds[] = {0, 1, 2, 3, 4, 5, 6, 7, 8, 9, 255};
    static const uint8_t codes[] = {0, 1, 2, 3, 4, 5, 6, 7, 8, 9, 10, 14, 255};
    static const uint8_t rotations[] = {0, 1, 24, 25, 26, 255}, marks[] = {0, 1, 2, 255};
    struct tried each = begin("0: one answer more, any byte in its head");
    struct tried all = begin("0: one answer more, bytes on both sides of what is known");
    for (unsigned byte = 0; byte < 256; byte++) {
        uint8_t b = (uint8_t)byte;
        const struct head heads[] = {{b, 0, 0, 1}, {b, 5, 0, 0}, {2, b, 0, 1}, {1, 0, b, 1}, {2, 0, b, 1},
                                     {4, 0, b, 0}, {8, 6, b, 0}, {6, 9, b, 0}, {4, 0, 3, b},
                                     {7, 7, 0, b}};
        for (size_t i = 0; i < sizeof heads / sizeof heads[0]; i++)
            record(&each, heads[i]);
    }
    for (size_t k = 0; k < sizeof kinds; k++)
        for (size_t c = 0; c < sizeof codes; c++)
            for (size_t r = 0; r < sizeof rotations; r++)
                for (size_t m = 0; m < sizeof marks; m++) {
                    struct head head = {kinds[k], codes[c], rotations[r], marks[m]};
                    record(&all, head);
                }
    return end(&each) + end(&all);
}

/* ---- files */

/* A file of every length up to four answers: counted with others and alone, and cut behind each answer. */
static int files(void)
{
    static const struct head head = {4, 0, 25, 0};
    struct tried with = begin("0: a file more, of any length"), alone = begin("0: the tally of a file");
    struct tried parts = begin("0: a file in two parts, cut behind an answer");
    struct tried sums = begin("0: the sum of its parts' tallies");
    for (size_t length = 0; length <= MOST_BYTES - 8; length++) {
        unsigned turn = (unsigned)length;
        uint8_t *bytes = answers_with(head, length, turn);
        begin_call(turn);
        count(head, length / ANSWER);
        left[ZANIKORY_TALLY_LEFT_OVER_AT] += length % ANSWER;
        hold(&with, zanikory_tally_file(counts, SIZE, bytes, length), ZANIKORY_CODE_DONE);
        zeros();
        count(head, length / ANSWER);
        left[ZANIKORY_TALLY_LEFT_OVER_AT] = length % ANSWER;
        hold(&alone, zanikory_tally_of(counts, SIZE, bytes, length), ZANIKORY_CODE_DONE);
        for (size_t cut = 0; cut <= length; cut += ANSWER) {
            zanikory_tally_of(counts, SIZE, bytes, cut);
            hold(&parts, zanikory_tally_file(counts, SIZE, bytes + cut, length - cut), ZANIKORY_CODE_DONE);
            zanikory_tally_of(more, SIZE, bytes, cut);
            zanikory_tally_of(counts, SIZE, bytes + cut, length - cut);
            hold(&sums, zanikory_tally_add(counts, SIZE, more, SIZE), ZANIKORY_CODE_DONE);
        }
    }
    return end(&with) + end(&alone) + end(&parts) + end(&sums);
}

/* ---- counts near 2^64 */

/* At each place two counts that add up to the largest number, and then two that add up to one more. */
static int near_the_end(void)
{
    static const uint64_t seconds[] = {0, 1, 2, LARGEST / 2, LARGEST / 2 + 1, LARGEST - 1, LARGEST};
    struct tried fit = begin("0: a sum of 2^64 - 1, at each place");
    struct tried pass = begin("14: a sum of 2^64 and more, at each place");
    for (size_t place = 0; place < SIZE; place++)
        for (size_t i = 0; i < sizeof seconds / sizeof seconds[0]; i++) {
            begin_call((unsigned)place);
            for (size_t j = 0; j < SIZE; j++)
                left[j] += more[j];
            more[place] = seconds[i];
            counts[place] = LARGEST - seconds[i];
            left[place] = LARGEST;
            hold(&fit, zanikory_tally_add(counts, SIZE, more, SIZE), ZANIKORY_CODE_DONE);
            for (uint64_t above = 1; above <= seconds[i] && above < 3; above++) {
                counts[place] = LARGEST - seconds[i] + above;
                zeros();
                hold(&pass, zanikory_tally_add(counts, SIZE, more, SIZE), ZANIKORY_CODE_COUNT_TOO_LARGE);
            }
        }
    return end(&fit) + end(&pass);
}

/* An answer, alone and in a file, where a count that it is counted in has room for it and where it has none. */
static void at_the_end(struct tried *fit, struct tried *pass, struct head head, size_t place)
{
    for (size_t length = ANSWER; length <= 2 * ANSWER; length += ANSWER) {
        enum call call = length == ANSWER ? RECORD : FILE_MORE;
        uint64_t times = length / ANSWER;
        uint8_t *bytes = answers_with(head, length, fit->calls);
        begin_call(fit->calls);
        counts[place] = left[place] = LARGEST - times;
        count(head, times);
        hold(fit, called(call, SIZE, bytes, length), ZANIKORY_CODE_DONE);
        counts[place] = LARGEST - times + 1;
        zeros();
        hold(pass, called(call, SIZE, bytes, length), ZANIKORY_CODE_COUNT_TOO_LARGE);
    }
}

static int records_near_the_end(void)
{
    struct tried fit = begin("0: answers up to 2^64 - 1, in each cell");
    struct tried pass = begin("14: answers up to 2^64, in each cell");
    for (uint8_t kind = 0; kind <= 9; kind++)
        for (uint8_t code = 0; code <= 10; code++)
            for (uint8_t rotations = 0; rotations <= (code == 0 ? 26 : 0); rotations++)
                for (uint8_t mark = 0; mark < 2; mark++) {
                    struct head head = {kind, code, rotations, mark};
                    struct places places = places_of(head);
                    for (size_t i = 0; i < places.many; i++)
                        at_the_end(&fit, &pass, head, places.at[i]);
                }
    return end(&fit) + end(&pass);
}

/* The bytes left over are a count as the others are; a file without any leaves it. */
static int left_over_near_the_end(void)
{
    static const struct head head = {1, 0, 0, 1};
    struct tried fit = begin("0: bytes left over up to 2^64 - 1");
    struct tried pass = begin("14: bytes left over up to 2^64");
    for (size_t part = 0; part < ANSWER; part++) {
        uint8_t *bytes = answers_with(head, ANSWER + part, (unsigned)part);
        begin_call((unsigned)part);
        counts[ZANIKORY_TALLY_LEFT_OVER_AT] = LARGEST - part;
        left[ZANIKORY_TALLY_LEFT_OVER_AT] = LARGEST;
        count(head, 1);
        hold(&fit, zanikory_tally_file(counts, SIZE, bytes, ANSWER + part), ZANIKORY_CODE_DONE);
        if (part == 0)
            continue;
        counts[ZANIKORY_TALLY_LEFT_OVER_AT] = LARGEST - part + 1;
        zeros();
        hold(&pass, zanikory_tally_file(counts, SIZE, bytes, ANSWER + part), ZANIKORY_CODE_COUNT_TOO_LARGE);
    }
    return end(&fit) + end(&pass);
}

int main(void)
{
    int wrong = lengths() + cleared() + records() + files();
    wrong += near_the_end() + records_near_the_end() + left_over_near_the_end();
    printf("%d wrong\n", wrong);
    return wrong != 0;
}
