/* Holds the entry on rows against those on one matrix, bit for bit: each answer of a row is that of its matrix
   alone, whatever stands beside it. And holds what the header says of it against the library, where it is more
   than the proof sees: the struct, bytes beside the two buffers, and addresses of any alignment. One line for
   each kind of call, with how many were tried; the first that is wrong of a kind has a line of its own. Ends
   with 1 if any is. */
#include <stddef.h>
#include <stdint.h>
#include <stdio.h>
#include <string.h>

#include "bits.h"
#include "random.h"
#include "tried.h"
#include "zanikory.h"

/* A buffer lies at GUARD or up to seven bytes behind it, and may have one place more than twice the most. */
enum {
    GUARD = 64,
    MATRIX = ZANIKORY_ROW_MATRIX_SIZE,
    ANSWER = ZANIKORY_ROW_ANSWER_SIZE,
    MOST = ZANIKORY_ROW_MOST,
    PLACES = 2 * MOST + 1,
    MATRICES_ROOM = GUARD + PLACES * MATRIX + GUARD,
    ANSWERS_ROOM = GUARD + PLACES * ANSWER + GUARD
};

/* What is handed over, and bytes beside it; and what must stand there after the call. */
static uint8_t matrices_room[MATRICES_ROOM], answers_room[ANSWERS_ROOM];
static uint8_t matrices_left[MATRICES_ROOM], answers_left[ANSWERS_ROOM];

/* ---- a row, and what the entries on one matrix answer */

/* A matrix, and its answer by the entries on one. */
struct place {
    double matrix[9];
    struct zanikory_svd_3x3_answer alone;
};

static double matrices[PLACES][9];
static struct zanikory_svd_3x3_answer alone[PLACES];

/* The code and the numbers by the entry on doubles, where a refusal leaves zeros; rotations and mark by the one
   on records, which has zeros for them too. In the old way it works a matrix as it is given, as a row does. */
static struct place answered_alone(const double matrix[9])
{
    struct place place;
    struct zanikory_svd_3x3_answer *answer = &place.alone;
    uint8_t request[ZANIKORY_REQUEST_SIZE] = {0}, record[ZANIKORY_ANSWER_SIZE];
    double numbers[30] = {0};
    memcpy(place.matrix, matrix, sizeof place.matrix);
    memset(answer, 0, sizeof *answer);
    answer->code = zanikory_svd_3x3(matrix, 9, numbers, 30);
    memcpy(answer->values, numbers, sizeof answer->values);
    memcpy(answer->u, numbers + 3, sizeof answer->u);
    memcpy(answer->v, numbers + 12, sizeof answer->v);
    memcpy(answer->worked, numbers + 21, sizeof answer->worked);
    request[ZANIKORY_REQUEST_KIND_AT] = ZANIKORY_KIND_SVD_3X3;
    request[ZANIKORY_REQUEST_WAY_AT] = ZANIKORY_WAY_OLD;
    memcpy(request + ZANIKORY_REQUEST_NINE_AT, matrix, sizeof place.matrix);
    zanikory_answer_record(request, sizeof request, record, sizeof record);
    answer->rotations = record[ZANIKORY_ANSWER_ROTATIONS_AT];
    answer->settled = record[ZANIKORY_ANSWER_SETTLED_AT];
    return place;
}

static void put(size_t i, const struct place *place)
{
    memcpy(matrices[i], place->matrix, sizeof matrices[i]);
    alone[i] = place->alone;
}

static struct place taken(size_t i)
{
    struct place place;
    memcpy(place.matrix, matrices[i], sizeof place.matrix);
    place.alone = alone[i];
    return place;
}

/* ---- a call, and what it must leave */

/* Bytes that differ from place to place; begun elsewhere, they differ from call to call. */
static uint8_t fresh[ANSWERS_ROOM + 256];

static void make_fresh(void)
{
    for (size_t i = 0; i < sizeof fresh; i++)
        fresh[i] = (uint8_t)(i * 37 + 1);
}

static void hold(struct tried *tried, uint8_t code, uint8_t expected)
{
    int beside = memcmp(matrices_room, matrices_left, sizeof matrices_room) != 0;
    int answers = memcmp(answers_room, answers_left, sizeof answers_room) != 0;
    tried->calls++;
    if (code == expected && !beside && !answers)
        return;
    tried->wrong++;
    if (tried->wrong == 1)
        printf("%s: call %u: code %d, expected %d%s%s\n", tried->what, tried->calls, code, expected,
               beside ? "; the matrices were written" : "",
               answers ? "; the answers, or what lies beside them, are wrong" : "");
}

/* The call on the first bytes of the row. With 0 all answers are filled, and else none. The buffers have
   another alignment each time. */
static void call(struct tried *tried, size_t matrices_length, size_t answers_length, uint8_t expected)
{
    static unsigned turn;
    uint8_t *given = matrices_room + GUARD + turn % 8;
    size_t answers_at = GUARD + turn / 8 % 8;
    memcpy(matrices_room, fresh + turn % 256, sizeof matrices_room);
    memcpy(answers_room, fresh + (turn + 1) % 256, sizeof answers_room);
    memcpy(given, matrices, sizeof matrices);
    memcpy(matrices_left, matrices_room, sizeof matrices_room);
    memcpy(answers_left, answers_room, sizeof answers_room);
    if (expected == ZANIKORY_CODE_DONE)
        memcpy(answers_left + answers_at, alone, answers_length);
    uint8_t code =
        zanikory_svd_3x3_row(given, matrices_length, answers_room + answers_at, answers_length);
    hold(tried, code, expected);
    turn++;
}

/* The same with rows of equal length. */
static void call_row(struct tried *tried, size_t places, uint8_t expected)
{
    call(tried, places * MATRIX, places * ANSWER, expected);
}

/* ---- numbers by a fixed rule, so that every run has the same ones */

static uint64_t state = 64;

static int between(int low, int high)
{
    return low + (int)(random_word(&state) % (uint64_t)(high - low + 1));
}

/* Of either sign, with any digits; in magnitude from 2^low on and below 2^(high + 1). At -1023 are subnormals,
   and at 1024 NaNs. */
static double number(int low, int high)
{
    uint64_t exponent = (uint64_t)(between(low, high) + 1023);
    return double_of((random_word(&state) & (SIGN | 0xFFFFFFFFFFFFFu)) | exponent << 52);
}

/* A matrix with numbers of one size on the diagonal, and of another off it. */
static void fill_matrix(double matrix[9], int low, int high, int off_low, int off_high)
{
    for (size_t i = 0; i < 9; i++)
        matrix[i] = i % 4 == 0 ? number(low, high) : number(off_low, off_high);
}

/* A row that is answered with 0 in every place. */
static void make_row(void)
{
    for (size_t i = 0; i < PLACES; i++) {
        double matrix[9];
        fill_matrix(matrix, -4, 4, -4, 4);
        struct place place = answered_alone(matrix);
        put(i, &place);
    }
}

/* ---- the struct */

struct size {
    size_t is, expected;
};

#define AT(member) offsetof(struct zanikory_svd_3x3_answer, member)

/* The head, and then the numbers in the order of the entry on doubles, with nothing between. */
static int sizes(void)
{
    static const struct size wanted[] = {
        {sizeof(double[9]), MATRIX},
        {sizeof(struct zanikory_svd_3x3_answer), ANSWER},
        {AT(code), 0},
        {AT(rotations), 1},
        {AT(settled), 2},
        {AT(zero), 3},
        {AT(values), 8},
        {AT(u), 8 + 3 * sizeof(double)},
        {AT(v), 8 + 12 * sizeof(double)},
        {AT(worked), 8 + 21 * sizeof(double)},
    };
    struct tried tried = begin("sizes, and places in the struct");
    for (size_t i = 0; i < sizeof wanted / sizeof wanted[0]; i++) {
        tried.calls++;
        if (wanted[i].is == wanted[i].expected)
            continue;
        tried.wrong++;
        if (tried.wrong == 1)
            printf("%s: number %u is not %u\n", tried.what, tried.calls, (unsigned)wanted[i].expected);
    }
    return end(&tried);
}

/* ---- lengths */

static int equal_lengths(void)
{
    struct tried done = begin("0: rows of 0 to 64 places");
    struct tried aligned = begin("0: a row at each alignment");
    struct tried too_long = begin("11: rows of 65 places and more");
    for (size_t places = 0; places <= MOST; places++)
        call_row(&done, places, ZANIKORY_CODE_DONE);
    for (size_t alignments = 0; alignments < 64; alignments++)
        call_row(&aligned, 3, ZANIKORY_CODE_DONE);
    for (size_t places = MOST + 1; places <= PLACES; places++)
        call_row(&too_long, places, ZANIKORY_CODE_ROW_TOO_LONG);
    return end(&done) + end(&aligned) + end(&too_long);
}

/* Each two of those around the shortest row, the longest, and one that is twice as long. */
static int unequal_lengths(void)
{
    static const size_t lengths[] = {0,    1,        2,        3,          MOST - 2,   MOST - 1,
                                     MOST, MOST + 1, MOST + 2, PLACES - 2, PLACES - 1, PLACES};
    const size_t n = sizeof lengths / sizeof lengths[0];
    struct tried more = begin("10: more matrices than answers");
    struct tried fewer = begin("10: fewer matrices than answers");
    for (size_t i = 0; i < n; i++)
        for (size_t j = 0; j < n; j++)
            if (i != j)
                call(i > j ? &more : &fewer, lengths[i] * MATRIX, lengths[j] * ANSWER,
                     ZANIKORY_CODE_ROWS_UNEQUAL);
    return end(&more) + end(&fewer);
}

/* A part of a place behind equally many whole ones, of one row and of both: a byte, a number, all but a number,
   all but a byte. */
static int parts_of_places(void)
{
    static const size_t lengths[] = {0, 1, 2, MOST - 1, MOST, MOST + 1};
    static const size_t of_matrix[] = {1, 8, MATRIX - 8, MATRIX - 1};
    static const size_t of_answer[] = {1, 8, ANSWER - 8, ANSWER - 1};
    struct tried matrix = begin("10: a part of a matrix behind whole ones");
    struct tried answer = begin("10: a part of an answer behind whole ones");
    struct tried both = begin("10: a part of both");
    for (size_t i = 0; i < sizeof lengths / sizeof lengths[0]; i++) {
        size_t given = lengths[i] * MATRIX, room = lengths[i] * ANSWER;
        for (size_t m = 0; m < 4; m++) {
            call(&matrix, given + of_matrix[m], room, ZANIKORY_CODE_ROWS_UNEQUAL);
            call(&answer, given, room + of_answer[m], ZANIKORY_CODE_ROWS_UNEQUAL);
            for (size_t a = 0; a < 4; a++)
                call(&both, given + of_matrix[m], room + of_answer[a], ZANIKORY_CODE_ROWS_UNEQUAL);
        }
    }
    return end(&matrix) + end(&answer) + end(&both);
}

/* ---- refused matrices */

static const uint64_t not_finite[] = {FOUR_NANS, BOTH_INFINITIES};

enum { NOT_FINITE = sizeof not_finite / sizeof not_finite[0] };

#define LARGE 0x1.8p1023

/* Finite, and a rotation passes the largest double: all numbers are large, or those off the diagonal, or those
   on it. */
static const double overflowing[][9] = {
    {LARGE, LARGE, LARGE, LARGE, LARGE, LARGE, LARGE, LARGE, LARGE},
    {0, LARGE, 0, -LARGE, 0, 0, 0, 0, 1},
    {LARGE, 1, 1, 1, LARGE, 1, 1, 1, LARGE},
};

enum { OVERFLOWING = sizeof overflowing / sizeof overflowing[0] };

/* A matrix with this pattern in one of its nine places. */
static struct place with_pattern(const struct place *sound, size_t i, uint64_t pattern)
{
    double matrix[9];
    memcpy(matrix, sound->matrix, sizeof matrix);
    memcpy(matrix + i, &pattern, sizeof pattern);
    return answered_alone(matrix);
}

/* A matrix alone must have this code, since the kind of call is named for it. */
static void demand(struct tried *tried, const struct place *place, uint8_t code)
{
    if (place->alone.code == code)
        return;
    tried->wrong++;
    if (tried->wrong == 1)
        printf("%s: call %u: the matrix alone has code %d, expected %d\n", tried->what, tried->calls + 1,
               place->alone.code, code);
}

/* A whole row with another matrix in one place. */
static void call_with(struct tried *tried, size_t i, const struct place *other, uint8_t code)
{
    struct place sound = taken(i);
    demand(tried, other, code);
    put(i, other);
    call_row(tried, MOST, ZANIKORY_CODE_DONE);
    put(i, &sound);
}

static int one_refused(void)
{
    struct tried five = begin("0: a matrix that is refused with 5 in each place");
    struct tried seven = begin("0: a matrix that is refused with 7 in each place");
    for (size_t i = 0; i < MOST; i++) {
        struct place sound = taken(i);
        for (size_t p = 0; p < NOT_FINITE; p++) {
            struct place other = with_pattern(&sound, (i + p) % 9, not_finite[p]);
            call_with(&five, i, &other, ZANIKORY_CODE_INPUT_NOT_FINITE);
        }
        for (size_t p = 0; p < OVERFLOWING; p++) {
            struct place other = answered_alone(overflowing[p]);
            call_with(&seven, i, &other, ZANIKORY_CODE_ANSWER_NOT_FINITE);
        }
    }
    return end(&five) + end(&seven);
}

/* Every place refused: with 5, with 7, and with the one and the other in turn. */
static int all_refused(void)
{
    struct tried tried = begin("0: every matrix is refused");
    for (size_t sort = 0; sort < 3; sort++) {
        for (size_t i = 0; i < MOST; i++) {
            int overflows = sort == 1 || (sort == 2 && i % 2 == 1);
            struct place sound = taken(MOST);
            struct place other = overflows ? answered_alone(overflowing[i % OVERFLOWING])
                                           : with_pattern(&sound, i % 9, not_finite[i % NOT_FINITE]);
            demand(&tried, &other,
                   overflows ? ZANIKORY_CODE_ANSWER_NOT_FINITE : ZANIKORY_CODE_INPUT_NOT_FINITE);
            put(i, &other);
        }
        call_row(&tried, MOST, ZANIKORY_CODE_DONE);
    }
    return end(&tried);
}

/* ---- matrices of all sizes */

/* Numbers of ordinary size; of one size, whichever it is; of any bits; near the largest double, with NaNs;
   large and nearly isotropic, so that 25 rotations may not settle them; tiny on the diagonal, so that a
   rotation is blind. */
enum { ORDINARY, ONE_SIZE, ANY_BITS, LARGEST, ISOTROPIC, TINY_DIAGONAL, SORTS };

static void fill_sort(double matrix[9], int sort)
{
    int size = between(-1023, 1023);
    switch (sort) {
    case ORDINARY: fill_matrix(matrix, -10, 10, -10, 10); return;
    case ONE_SIZE: fill_matrix(matrix, size, size, size, size); return;
    case ANY_BITS: fill_matrix(matrix, -1023, 1024, -1023, 1024); return;
    case LARGEST: fill_matrix(matrix, 1023, 1024, 1021, 1022); return;
    case ISOTROPIC:
        fill_matrix(matrix, 30, 30, -26, -22);
        matrix[4] = matrix[8] = matrix[0];
        return;
    default:
        fill_matrix(matrix, -80, -53, -40, 0);
        matrix[3] = matrix[1];
        matrix[6] = matrix[2];
        matrix[7] = matrix[5];
    }
}

/* How a matrix is answered. */
enum { MARKED, UNMARKED_AT_25, UNMARKED, REFUSED_5, REFUSED_7, ENDS };

static int end_of(const struct zanikory_svd_3x3_answer *answer)
{
    if (answer->code != ZANIKORY_CODE_DONE)
        return answer->code == ZANIKORY_CODE_INPUT_NOT_FINITE ? REFUSED_5 : REFUSED_7;
    if (answer->settled)
        return MARKED;
    return answer->rotations == 25 ? UNMARKED_AT_25 : UNMARKED;
}

/* Rows of each length, ten times. Each way of being answered is met. */
static int all_sizes(void)
{
    static const char *const words[ENDS] = {"   mark 1", "   mark 0 after 25 rotations",
                                            "   mark 0 after fewer", "   refused with 5",
                                            "   refused with 7"};
    struct tried tried = begin("0: rows of matrices of all sizes"), ends[ENDS];
    for (size_t i = 0; i < ENDS; i++)
        ends[i] = begin(words[i]);
    for (size_t turn = 0; turn < 10 * (MOST + 1); turn++) {
        size_t places = turn % (MOST + 1);
        for (size_t i = 0; i < places; i++) {
            double matrix[9];
            fill_sort(matrix, between(0, SORTS - 1));
            struct place place = answered_alone(matrix);
            ends[end_of(&place.alone)].calls++;
            put(i, &place);
        }
        call_row(&tried, places, ZANIKORY_CODE_DONE);
    }
    int wrong = end(&tried);
    for (size_t i = 0; i < ENDS; i++) {
        ends[i].wrong = ends[i].calls == 0;
        wrong += end(&ends[i]);
    }
    return wrong;
}

int main(void)
{
    make_fresh();
    make_row();
    int wrong = sizes();
    wrong += equal_lengths() + unequal_lengths() + parts_of_places();
    wrong += one_refused() + all_refused();
    wrong += all_sizes();
    printf("%d wrong\n", wrong);
    return wrong != 0;
}
