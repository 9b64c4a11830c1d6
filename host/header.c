/* Holds what the header says of records against the library, where it is more than the proof sees: the
   header's own constants, bytes beside the two buffers, addresses of any alignment, and NaNs with a
   payload. Every call on records and rows is made from C and from C++. One line for each kind of call, with
   how many were tried; the first that is wrong of a kind has a line of its own. Ends with 1 if any is. */
#include <stddef.h>
#include <stdint.h>
#include <stdio.h>
#include <string.h>

#include "bits.h"
#include "tried.h"
#include "zanikory.h"

uint8_t answer_record_from_cpp(const uint8_t *request, size_t request_length, uint8_t *answer,
                               size_t answer_length);
uint8_t svd_3x3_row_from_cpp(const uint8_t *matrices, size_t matrices_length, uint8_t *answers,
                             size_t answers_length);

/* A buffer lies at GUARD or up to seven bytes behind it, and may have twice its right length. */
enum { GUARD = 64, ROOM = GUARD + 2 * ZANIKORY_ANSWER_SIZE + GUARD };

static uint8_t request_room[ROOM], answer_room[ROOM]; /* what is handed over, and bytes beside it */
static uint8_t request_left[ROOM], answer_left[ROOM]; /* what must stand there after the call */

/* ---- requests */

struct kind {
    uint8_t number;
    size_t nine, three; /* how many it uses */
    uint8_t last_way;   /* it has this one and those below */
};

static const struct kind kinds[] = {
    {ZANIKORY_KIND_EIGEN_2X2, 3, 0, ZANIKORY_WAY_OLD},
    {ZANIKORY_KIND_EIGEN_3X3, 6, 0, ZANIKORY_WAY_OLD},
    {ZANIKORY_KIND_SVD_2X2, 4, 0, ZANIKORY_WAY_OLD},
    {ZANIKORY_KIND_SVD_3X3, 9, 0, ZANIKORY_WAY_OLD},
    {ZANIKORY_KIND_CHOLESKY_2X2, 3, 0, 0},
    {ZANIKORY_KIND_CHOLESKY_3X3, 6, 0, 0},
    {ZANIKORY_KIND_FACTOR_AND_SOLVE_2X2, 3, 2, 0},
    {ZANIKORY_KIND_FACTOR_AND_SOLVE_3X3, 6, 3, 0},
};

enum { KINDS = sizeof kinds / sizeof kinds[0], NUMBERS = 12 };

struct request {
    uint8_t bytes[ZANIKORY_REQUEST_SIZE];
};

/* A request of a kind that is answered with 0: its first numbers are those of a matrix that has a factor. */
static struct request good(const struct kind *kind)
{
    static const double nine[9] = {4, 2, 5, 2, 3, 6, 1, 1, 1}, three[3] = {8, 10, 11};
    struct request r = {{0xEF, 0xBE, 0xAD, 0xDE}};
    r.bytes[ZANIKORY_REQUEST_KIND_AT] = kind->number;
    memcpy(r.bytes + ZANIKORY_REQUEST_NINE_AT, nine, kind->nine * sizeof nine[0]);
    memcpy(r.bytes + ZANIKORY_REQUEST_THREE_AT, three, kind->three * sizeof three[0]);
    return r;
}

/* ---- a call, and what it must leave */

struct expected {
    uint8_t code;
    size_t length; /* how many bytes of the answer are written */
    uint8_t answer[ZANIKORY_ANSWER_SIZE];
};

static struct expected stays(void)
{
    struct expected e = {ZANIKORY_CODE_OUTPUT_LENGTH, 0, {0}};
    return e;
}

static struct expected wrong_length(void)
{
    struct expected e = {ZANIKORY_CODE_INPUT_LENGTH, ZANIKORY_ANSWER_SIZE, {0}};
    e.answer[ZANIKORY_ANSWER_CODE_AT] = ZANIKORY_CODE_INPUT_LENGTH;
    return e;
}

/* The event number and the kind stand at the same places in both. */
static struct expected refused(const struct request *r, uint8_t code)
{
    struct expected e = {code, ZANIKORY_ANSWER_SIZE, {0}};
    memcpy(e.answer, r->bytes, ZANIKORY_REQUEST_WAY_AT);
    e.answer[ZANIKORY_ANSWER_CODE_AT] = code;
    return e;
}

/* Fills a room with bytes that differ from place to place and from call to call. */
static void fill(uint8_t *room, unsigned turn)
{
    for (size_t i = 0; i < ROOM; i++)
        room[i] = (uint8_t)(i * 37 + turn * 101 + 1);
}

static void hold(struct tried *tried, uint8_t code, const struct expected *e)
{
    int beside = memcmp(request_room, request_left, ROOM) != 0;
    int answer = memcmp(answer_room, answer_left, ROOM) != 0;
    tried->calls++;
    if (code == e->code && !beside && !answer)
        return;
    tried->wrong++;
    if (tried->wrong == 1)
        printf("%s: call %u: code %d, expected %d%s%s\n", tried->what, tried->calls, code, e->code,
               beside ? "; the request was written" : "",
               answer ? "; the answer, or what lies beside it, is wrong" : "");
}

/* The call with the first bytes of a request, or with more than it has, from each language. The buffers
   have another alignment each time. */
static void call(struct tried *tried, const struct request *r, size_t request_length,
                 size_t answer_length, const struct expected *e)
{
    static unsigned turn;
    size_t request_at = GUARD + turn % 8, answer_at = GUARD + turn / 8 % 8;
    uint8_t (*const entries[])(const uint8_t *, size_t, uint8_t *, size_t) = {zanikory_answer_record,
                                                                              answer_record_from_cpp};
    for (size_t i = 0; i < sizeof entries / sizeof entries[0]; i++) {
        fill(request_room, turn);
        fill(answer_room, turn + 1);
        memcpy(request_room + request_at, r->bytes, sizeof r->bytes);
        memcpy(request_left, request_room, ROOM);
        memcpy(answer_left, answer_room, ROOM);
        memcpy(answer_left + answer_at, e->answer, e->length);
        uint8_t code = entries[i](request_room + request_at, request_length, answer_room + answer_at,
                                  answer_length);
        hold(tried, code, e);
    }
    turn++;
}

/* A request of the right length that is refused with the code. */
static void call_refused(struct tried *tried, const struct request *r, uint8_t code)
{
    struct expected e = refused(r, code);
    call(tried, r, ZANIKORY_REQUEST_SIZE, ZANIKORY_ANSWER_SIZE, &e);
}

/* One that is answered with 0, the same from both languages and at any address. */
static void call_done(struct tried *tried, const struct request *r)
{
    struct expected e = {ZANIKORY_CODE_DONE, ZANIKORY_ANSWER_SIZE, {0}};
    zanikory_answer_record(r->bytes, sizeof r->bytes, e.answer, sizeof e.answer);
    call(tried, r, ZANIKORY_REQUEST_SIZE, ZANIKORY_ANSWER_SIZE, &e);
}

/* ---- the kinds of call */

static int lengths(void)
{
    struct tried answers = begin("2: an answer of another length stays");
    struct tried requests = begin("1: a request of another length");
    struct request r = good(&kinds[0]);
    struct expected two = stays(), one = wrong_length();
    for (size_t length = 0; length <= 2 * ZANIKORY_ANSWER_SIZE; length++)
        if (length != ZANIKORY_ANSWER_SIZE) {
            call(&answers, &r, ZANIKORY_REQUEST_SIZE, length, &two);
            call(&answers, &r, 0, length, &two);
        }
    for (size_t length = 0; length <= 2 * ZANIKORY_REQUEST_SIZE; length++)
        if (length != ZANIKORY_REQUEST_SIZE)
            call(&requests, &r, length, ZANIKORY_ANSWER_SIZE, &one);
    return end(&answers) + end(&requests);
}

/* The whole example of the records' description: event 7, kind 1, numbers 2, 1, 2. */
static int example(void)
{
    static const uint8_t head[8] = {7, 0, 0, 0, 1, 0, 0, 1};
    static const uint64_t one = 0x3FF0000000000000u, three = 0x4008000000000000u;
    static const uint64_t h = 0x3FE6A09E667F3BCDu, minus_h = 0xBFE6A09E667F3BCDu;
    const uint64_t values[3] = {one, three, 0}, left[4] = {h, minus_h, h, h};
    struct tried tried = begin("0: event 7, kind 1, numbers 2, 1, 2");
    struct request r = {{7, 0, 0, 0, ZANIKORY_KIND_EIGEN_2X2}};
    const double numbers[3] = {2, 1, 2};
    struct expected e = {ZANIKORY_CODE_DONE, ZANIKORY_ANSWER_SIZE, {0}};
    memcpy(r.bytes + ZANIKORY_REQUEST_NINE_AT, numbers, sizeof numbers);
    memcpy(e.answer, head, sizeof head);
    memcpy(e.answer + ZANIKORY_ANSWER_VALUES_AT, values, sizeof values);
    memcpy(e.answer + ZANIKORY_ANSWER_LEFT_AT, left, sizeof left);
    for (size_t alignments = 0; alignments < 64; alignments++)
        call(&tried, &r, ZANIKORY_REQUEST_SIZE, ZANIKORY_ANSWER_SIZE, &e);
    return end(&tried);
}

/* volatile: each is read when the program runs, so the compiler can work out nothing beforehand. */
static const volatile uint64_t patterns[] = {FOUR_NANS, BOTH_INFINITIES};

/* Each pattern at each of the twelve places: 5 where the kind uses the number, and else 4. */
static int not_finite(void)
{
    struct tried used = begin("5: NaNs of any bits and infinities where a number is used");
    struct tried unused = begin("4: the same where none is");
    for (size_t k = 0; k < KINDS; k++)
        for (size_t p = 0; p < sizeof patterns / sizeof patterns[0]; p++)
            for (size_t place = 0; place < NUMBERS; place++) {
                int is_used = place < 9 ? place < kinds[k].nine : place - 9 < kinds[k].three;
                struct request r = good(&kinds[k]);
                uint64_t pattern = patterns[p];
                memcpy(r.bytes + ZANIKORY_REQUEST_NINE_AT + place * 8, &pattern, sizeof pattern);
                if (is_used)
                    call_refused(&used, &r, ZANIKORY_CODE_INPUT_NOT_FINITE);
                else
                    call_refused(&unused, &r, ZANIKORY_CODE_RESERVED);
            }
    return end(&used) + end(&unused);
}

/* Each constant of a kind is one that is answered, the same from both languages and at any address; every
   other byte is none. */
static int kind_bytes(void)
{
    struct tried known = begin("0: each kind"), unknown = begin("3: each other kind");
    for (unsigned number = 0; number < 256; number++) {
        int is_known = number >= kinds[0].number && number <= kinds[KINDS - 1].number;
        struct request r = good(&kinds[is_known ? number - kinds[0].number : 0]);
        r.bytes[ZANIKORY_REQUEST_KIND_AT] = (uint8_t)number;
        if (is_known)
            call_done(&known, &r);
        else
            call_refused(&unknown, &r, ZANIKORY_CODE_UNKNOWN_KIND);
    }
    return end(&known) + end(&unknown);
}

/* Each way of each kind is answered. Every other byte there is refused with 4, and every byte but 0 in a
   reserved place. */
static int way_bytes(void)
{
    struct tried known = begin("0: each way of each kind");
    struct tried unknown = begin("4: each other way, and reserved bytes");
    for (size_t k = 0; k < KINDS; k++)
        for (size_t at = ZANIKORY_REQUEST_WAY_AT; at < ZANIKORY_REQUEST_NINE_AT; at++)
            for (unsigned byte = at > ZANIKORY_REQUEST_WAY_AT; byte < 256; byte++) {
                int is_known = at == ZANIKORY_REQUEST_WAY_AT && byte <= kinds[k].last_way;
                struct request r = good(&kinds[k]);
                r.bytes[at] = (uint8_t)byte;
                if (is_known)
                    call_done(&known, &r);
                else
                    call_refused(&unknown, &r, ZANIKORY_CODE_RESERVED);
            }
    return end(&known) + end(&unknown);
}

/* A request with its numbers times a power of two. */
static struct request in_unit(struct request r, double unit)
{
    double nine[9];
    memcpy(nine, r.bytes + ZANIKORY_REQUEST_NINE_AT, sizeof nine);
    for (size_t i = 0; i < 9; i++)
        nine[i] *= unit;
    memcpy(r.bytes + ZANIKORY_REQUEST_NINE_AT, nine, sizeof nine);
    return r;
}

static const double units[] = {0x1p-1021, 0x1p-200, 0x1p-47, 0x1p-1, 0x1p60, 0x1p1019};

/* In the scaled way the answer to a matrix in another unit has its values in that unit, and is else the
   same, bit for bit. The products here are exact. */
static int each_unit(void)
{
    struct tried tried = begin("0: the same matrix in other units, scaled");
    for (size_t k = 0; k < KINDS; k++)
        for (size_t i = 0; kinds[k].last_way > 0 && i < sizeof units / sizeof units[0]; i++) {
            struct request r = good(&kinds[k]), other = in_unit(r, units[i]);
            struct expected e = {ZANIKORY_CODE_DONE, ZANIKORY_ANSWER_SIZE, {0}};
            double values[3];
            zanikory_answer_record(r.bytes, sizeof r.bytes, e.answer, sizeof e.answer);
            memcpy(values, e.answer + ZANIKORY_ANSWER_VALUES_AT, sizeof values);
            for (size_t v = 0; v < 3; v++)
                values[v] *= units[i];
            memcpy(e.answer + ZANIKORY_ANSWER_VALUES_AT, values, sizeof values);
            call(&tried, &other, ZANIKORY_REQUEST_SIZE, ZANIKORY_ANSWER_SIZE, &e);
        }
    return end(&tried);
}

/* The largest double in all places: the largest value is twice that, or more. */
static int overflows(void)
{
    struct tried tried = begin("7: a value that overflows when it is multiplied back");
    for (size_t k = 0; k < KINDS; k++)
        if (kinds[k].last_way > 0) {
            struct request r = good(&kinds[k]);
            for (size_t i = 0; i < kinds[k].nine; i++) {
                const double largest = 0x1.fffffffffffffp1023;
                memcpy(r.bytes + ZANIKORY_REQUEST_NINE_AT + i * 8, &largest, sizeof largest);
            }
            call_refused(&tried, &r, ZANIKORY_CODE_ANSWER_NOT_FINITE);
        }
    return end(&tried);
}

struct refused_pivot {
    double matrix[6];
    uint8_t code, number;
};

static const struct refused_pivot refused_pivots[] = {
    {{-1, 0, 1, 0, 0, 1}, ZANIKORY_CODE_PIVOT, 1},
    {{1, 1, 1, 0, 0, 1}, ZANIKORY_CODE_PIVOT, 2},
    {{1, 0, 1, 1, 0, 1}, ZANIKORY_CODE_PIVOT, 3},
    {{0x1p-1074, 0, 1, 0x1p1023, 0, 1}, ZANIKORY_CODE_NAN_PIVOT, 3},
};

/* Each pivot that a 3x3 factor stops at with 6 and with 9, of both kinds that have such a factor. */
static int pivots(void)
{
    static const uint8_t numbers[] = {ZANIKORY_KIND_CHOLESKY_3X3, ZANIKORY_KIND_FACTOR_AND_SOLVE_3X3};
    struct tried tried = begin("6 and 9: each pivot that is refused");
    for (size_t i = 0; i < sizeof refused_pivots / sizeof refused_pivots[0]; i++)
        for (size_t k = 0; k < sizeof numbers; k++) {
            const struct refused_pivot *pivot = &refused_pivots[i];
            struct request r = good(&kinds[numbers[k] - kinds[0].number]);
            memcpy(r.bytes + ZANIKORY_REQUEST_NINE_AT, pivot->matrix, sizeof pivot->matrix);
            struct expected e = refused(&r, pivot->code);
            e.answer[ZANIKORY_ANSWER_PIVOT_AT] = pivot->number;
            call(&tried, &r, ZANIKORY_REQUEST_SIZE, ZANIKORY_ANSWER_SIZE, &e);
        }
    return end(&tried);
}

struct marked {
    uint8_t kind, way;
    double nine[9];
    uint8_t rotations, settled;
};

#define TINY 0x1p-60 /* under 2^-52 */

/* A blind rotation of each kind, and what is next to one: equal diagonal numbers, a diagonal number of 2^-52,
   nothing off the diagonal. Kind 3 also has a blind one whose matrix has 1 and -1 on the diagonal, and one
   that sees, of a matrix with tiny numbers there: the symmetrised pair counts. The largest number of these is
   1, which both ways work as it is. Then what only the old way leaves, with the same in the scaled way: 25
   rotations that do not settle a large tensor, a blind rotation and none at all of a tiny one. */
static const struct marked marked[] = {
    {ZANIKORY_KIND_EIGEN_2X2, 0, {0, 1, TINY}, 0, 0},
    {ZANIKORY_KIND_EIGEN_2X2, 0, {0, 1, -0.0}, 0, 1},
    {ZANIKORY_KIND_EIGEN_2X2, 0, {TINY, 1, TINY}, 0, 1},
    {ZANIKORY_KIND_EIGEN_2X2, 0, {0, 1, 0x1p-52}, 0, 1},
    {ZANIKORY_KIND_EIGEN_2X2, 0, {0, 0, TINY}, 0, 1},
    {ZANIKORY_KIND_EIGEN_3X3, 0, {0, 1, TINY, 0, 0, TINY}, 1, 0},
    {ZANIKORY_KIND_EIGEN_3X3, 0, {0, 1, 0, 0, 0, TINY}, 1, 1},
    {ZANIKORY_KIND_SVD_2X2, 0, {0, 1, 1, TINY}, 0, 0},
    {ZANIKORY_KIND_SVD_2X2, 0, {0, 1, 1, 0}, 0, 1},
    {ZANIKORY_KIND_SVD_2X2, 0, {-1, 0, -TINY, 1}, 0, 0},
    {ZANIKORY_KIND_SVD_2X2, 0, {0, 1, -1, TINY}, 0, 1},
    {ZANIKORY_KIND_SVD_3X3, 0, {0, 1, 0, 1, TINY, 0, 0, 0, TINY}, 1, 0},
    {ZANIKORY_KIND_SVD_3X3, 0, {0, 1, 0, 1, 0, 0, 0, 0, TINY}, 1, 1},
    {ZANIKORY_KIND_EIGEN_3X3, ZANIKORY_WAY_OLD, {0x1p30, 0x1p-24, 0x1p30, 0x1p-24, 0, 0x1p30}, 25, 0},
    {ZANIKORY_KIND_EIGEN_3X3, ZANIKORY_WAY_SCALED, {0x1p30, 0x1p-24, 0x1p30, 0x1p-24, 0, 0x1p30}, 0, 1},
    {ZANIKORY_KIND_EIGEN_2X2, ZANIKORY_WAY_OLD, {TINY, TINY, 2 * TINY}, 0, 0},
    {ZANIKORY_KIND_EIGEN_2X2, ZANIKORY_WAY_SCALED, {TINY, TINY, 2 * TINY}, 0, 1},
    {ZANIKORY_KIND_EIGEN_3X3, ZANIKORY_WAY_OLD, {TINY, TINY, 2 * TINY, 0, 0, TINY}, 0, 1},
    {ZANIKORY_KIND_EIGEN_3X3, ZANIKORY_WAY_SCALED, {TINY, TINY, 2 * TINY, 0, 0, TINY}, 1, 1},
};

/* Answers with code 0, settled and not. */
static int marks(void)
{
    struct tried tried = begin("0: settled or not");
    for (size_t i = 0; i < sizeof marked / sizeof marked[0]; i++) {
        struct request r = good(&kinds[marked[i].kind - kinds[0].number]);
        struct expected e = {ZANIKORY_CODE_DONE, ZANIKORY_ANSWER_SIZE, {0}};
        r.bytes[ZANIKORY_REQUEST_WAY_AT] = marked[i].way;
        memcpy(r.bytes + ZANIKORY_REQUEST_NINE_AT, marked[i].nine, sizeof marked[i].nine);
        zanikory_answer_record(r.bytes, sizeof r.bytes, e.answer, sizeof e.answer);
        e.answer[ZANIKORY_ANSWER_ROTATIONS_AT] = marked[i].rotations;
        e.answer[ZANIKORY_ANSWER_SETTLED_AT] = marked[i].settled;
        call(&tried, &r, ZANIKORY_REQUEST_SIZE, ZANIKORY_ANSWER_SIZE, &e);
    }
    return end(&tried);
}

/* ---- the other libraries, so that the program has all three: the factor over an old one, which is lent, and
   the header's example of a row */

struct factored {
    double matrix[3];
    uint8_t code, pivot;
    double factor[3];
};

static const struct factored factored[] = {
    {{4, 2, 5}, ZANIKORY_CODE_DONE, 0, {2, 1, 2}},
    {{-1, 1, 1}, ZANIKORY_CODE_PIVOT, 1, {7, 8, 9}},
    {{1, 1, 1}, ZANIKORY_CODE_PIVOT, 2, {1, 1, 9}},
};

static int factors(void)
{
    struct tried tried = begin("factors 2x2 over 7, 8, 9, from the library on doubles");
    for (size_t i = 0; i < sizeof factored / sizeof factored[0]; i++) {
        struct factored given = factored[i];
        double l[3] = {7, 8, 9};
        uint8_t pivot = 0xFF;
        uint8_t code = zanikory_cholesky_2x2_factor(l, 3, given.matrix, 3, &pivot);
        tried.calls++;
        tried.wrong += code != given.code || pivot != given.pivot || memcmp(l, given.factor, sizeof l) != 0;
    }
    return end(&tried);
}

static int row_example(void)
{
    uint8_t (*const entries[])(const uint8_t *, size_t, uint8_t *, size_t) = {zanikory_svd_3x3_row,
                                                                              svd_3x3_row_from_cpp};
    static const double values[3] = {3, 2, 1};
    struct tried tried = begin("a row of a matrix and a NaN, from the library on rows");
    for (size_t i = 0; i < sizeof entries / sizeof entries[0]; i++) {
        double matrices[2][9] = {{2, 0, 0, 0, 3, 0, 0, 0, 1}, {double_of(THE_NAN)}};
        struct zanikory_svd_3x3_answer answers[2];
        uint8_t code =
            entries[i]((const uint8_t *)matrices, sizeof matrices, (uint8_t *)answers, sizeof answers);
        tried.calls++;
        tried.wrong += code != ZANIKORY_CODE_DONE || answers[0].code != ZANIKORY_CODE_DONE ||
                       memcmp(answers[0].values, values, sizeof values) != 0 ||
                       answers[1].code != ZANIKORY_CODE_INPUT_NOT_FINITE;
    }
    return end(&tried);
}

int main(void)
{
    int wrong = lengths() + example() + kind_bytes() + way_bytes() + each_unit() + overflows();
    wrong += not_finite() + pivots() + marks();
    wrong += factors() + row_example();
    printf("%d wrong\n", wrong);
    return wrong != 0;
}
