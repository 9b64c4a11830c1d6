/* Shows what becomes of the bits of NaNs, zeros, infinities and subnormals that the entries on arrays
   move or leave alone, and the bits of the one NaN that they make themselves, that of a factor which stops
   at a NaN pivot. Their promises say NaN and not which, so words are compared here with those that the
   moving of words gives. One line for each kind of call, with how many were tried; the first that is wrong
   of a kind has a line of its own. Ends with 1 if any is. */
#include <stddef.h>
#include <stdint.h>
#include <stdio.h>
#include <string.h>

#include "bits.h"
#include "shown.h"
#include "zanikory.h"

#define TWO 0x4000000000000000u
#define MAX 1.7976931348623157e308
#define TINY 4.9406564584124654e-324
#define LARGE 0x1p1023
#define ROOT_OF_TINY 0x1E60000000000000u /* 2^-537 */

/* volatile: each is read when the program runs, so the compiler can work out nothing beforehand. */
static const volatile uint64_t patterns[] = {
    FOUR_NANS,
    BOTH_INFINITIES,
    0x8000000000000000u, /* -0 */
    0x0000000000000001u, /* the least subnormal */
    0x800FFFFFFFFFFFFFu, /* the largest subnormal, sign */
};

enum { PATTERNS = sizeof patterns / sizeof patterns[0], NANS = 4, NOT_FINITE = 6, ROOM = 36 };

/* ---- inputs: a pattern at one place among whole numbers, and then all places patterns */

/* One place more than the largest matrix has, so that a length can be one too large. */
struct numbers {
    uint64_t words[10];
    double doubles[10];
};

static size_t inputs(size_t length)
{
    return PATTERNS * length + PATTERNS;
}

static struct numbers input(size_t length, size_t number)
{
    struct numbers a = {{0}, {0}};
    for (size_t i = 0; i < length; i++) {
        a.words[i] = bits_of((double)(i + 1));
        if (number >= PATTERNS * length)
            a.words[i] = patterns[(number + i) % PATTERNS];
        else if (number % length == i)
            a.words[i] = patterns[number / length];
    }
    memcpy(a.doubles, a.words, sizeof a.doubles);
    return a;
}

/* ---- what is lent lies in `room` from the second place on. All of it holds patterns, in another order
   at each call, and a NaN's payload tells its place. `left` is what must stand there after the call. */

static double room[ROOM];
static uint64_t left[ROOM];

static void lend(void)
{
    static size_t turn;
    turn++;
    for (size_t i = 0; i < ROOM; i++) {
        size_t p = (i + turn) % PATTERNS;
        left[i] = p < NANS ? patterns[p] + (i << 8) : patterns[p];
    }
    memcpy(room, left, sizeof room);
}

static void leave(const double *numbers, size_t length)
{
    memcpy(left + 1, numbers, length * sizeof *numbers);
}

/* ---- a kind of call */

struct kind {
    const char *function, *what;
    unsigned tried, wrong;
};

static struct kind begin(const char *function, const char *what)
{
    struct kind kind = {function, what, 0, 0};
    return kind;
}

/* Holds one call to its code and to `left`. */
static void judge(struct kind *kind, uint8_t code, uint8_t expected)
{
    uint64_t words[ROOM];
    size_t place = 0;
    memcpy(words, room, sizeof words);
    while (place < ROOM && words[place] == left[place])
        place++;
    kind->tried++;
    if (code == expected && place == ROOM)
        return;
    kind->wrong++;
    if (kind->wrong > 1)
        return;
    printf("%s: call %u: code %d, expected %d", kind->function, kind->tried, code, expected);
    if (place < ROOM)
        printf("; place %d holds %016llX, expected %016llX", (int)place - 1,
               (unsigned long long)words[place], (unsigned long long)left[place]);
    printf("\n");
}

/* Prints the line of a kind, and gives the number of calls that were wrong. */
static int end(const struct kind *kind)
{
    printf("%-28s  %-42s  %5u  ", kind->function, kind->what, kind->tried);
    if (kind->wrong)
        printf("%u WRONG\n", kind->wrong);
    else
        printf("ok\n");
    return (int)kind->wrong;
}

/* ---- moves, all in one shape: i and j are columns, or a row and a column; x is what is written. What is
   moved stands at `lent`; what is only read stands at `a`, and the number goes to `lent` */

typedef uint8_t entry(size_t i, size_t j, double x, const double *a, double *lent);

/* The code and the words that a move gives. */
typedef uint8_t mover(size_t n, size_t i, size_t j, uint64_t x, const uint64_t *a, uint64_t *out);

struct move {
    const char *name;
    entry *call;
    mover *moved;
    size_t n, numbers, places;
    size_t firsts, seconds; /* how many values of i and j are tried: the last is outside */
};

#define ENTRY(name, arguments)                                                                  \
    static uint8_t name(size_t i, size_t j, double x, const double *a, double *lent)            \
    {                                                                                           \
        (void)i, (void)j, (void)x, (void)a;                                                     \
        return zanikory_##name arguments;                                                       \
    }

ENTRY(mat2_transpose, (lent))
ENTRY(mat3_transpose, (lent))
ENTRY(mat2_swap_columns, (i, j, lent))
ENTRY(mat3_swap_columns, (i, j, lent))
ENTRY(mat2_flip_column, (i, lent))
ENTRY(mat3_flip_column, (i, lent))
ENTRY(mat2_index_mut, (i, j, x, lent))
ENTRY(mat3_index_mut, (i, j, x, lent))
ENTRY(mat2_set_identity, (lent))
ENTRY(mat3_set_identity, (lent))
ENTRY(mat2_index, (i, j, a, lent))
ENTRY(mat3_index, (i, j, a, lent))
ENTRY(sym2_index, (i, j, a, lent))
ENTRY(sym3_index, (i, j, a, lent))
ENTRY(sym2_index_mut, (i, j, x, lent))
ENTRY(sym3_index_mut, (i, j, x, lent))

static void all(size_t length, const uint64_t *a, uint64_t *out)
{
    memcpy(out, a, length * sizeof *a);
}

static uint8_t transposed(size_t n, size_t i, size_t j, uint64_t x, const uint64_t *a, uint64_t *out)
{
    (void)i, (void)j, (void)x;
    for (size_t r = 0; r < n; r++)
        for (size_t c = 0; c < n; c++)
            out[r + c * n] = a[c + r * n];
    return 0;
}

static uint8_t swapped(size_t n, size_t i, size_t j, uint64_t x, const uint64_t *a, uint64_t *out)
{
    (void)x;
    all(n * n, a, out);
    if (i >= n || j >= n)
        return 8;
    all(n, a + i * n, out + j * n);
    all(n, a + j * n, out + i * n);
    return 0;
}

/* A change of sign is one of the sign bit alone, as that of Rust is, whatever the number. */
static uint8_t flipped(size_t n, size_t i, size_t j, uint64_t x, const uint64_t *a, uint64_t *out)
{
    (void)j, (void)x;
    all(n * n, a, out);
    if (i >= n)
        return 8;
    for (size_t r = 0; r < n; r++)
        out[r + i * n] ^= SIGN;
    return 0;
}

static uint8_t identity(size_t n, size_t i, size_t j, uint64_t x, const uint64_t *a, uint64_t *out)
{
    (void)i, (void)j, (void)x, (void)a;
    for (size_t k = 0; k < n * n; k++)
        out[k] = k % (n + 1) ? 0 : ONE;
    return 0;
}

static uint8_t square_read(size_t n, size_t i, size_t j, uint64_t x, const uint64_t *a, uint64_t *out)
{
    (void)x;
    out[0] = i < n && j < n ? a[i + j * n] : 0;
    return i < n && j < n ? 0 : 8;
}

static uint8_t square_written(size_t n, size_t i, size_t j, uint64_t x, const uint64_t *a, uint64_t *out)
{
    all(n * n, a, out);
    if (i >= n || j >= n)
        return 8;
    out[i + j * n] = x;
    return 0;
}

/* The triangle is A11, A12, A22, A13, A23, A33. */
static size_t packed(size_t i, size_t j)
{
    return i < j ? i + j * (j + 1) / 2 : j + i * (i + 1) / 2;
}

static uint8_t packed_read(size_t n, size_t i, size_t j, uint64_t x, const uint64_t *a, uint64_t *out)
{
    (void)x;
    out[0] = i < n && j < n ? a[packed(i, j)] : 0;
    return i < n && j < n ? 0 : 8;
}

static uint8_t packed_written(size_t n, size_t i, size_t j, uint64_t x, const uint64_t *a, uint64_t *out)
{
    all(n * (n + 1) / 2, a, out);
    if (i >= n || j >= n)
        return 8;
    out[packed(i, j)] = x;
    return 0;
}

static const struct move moves[] = {
    {"zanikory_mat2_transpose", mat2_transpose, transposed, 2, 4, 4, 1, 1},
    {"zanikory_mat3_transpose", mat3_transpose, transposed, 3, 9, 9, 1, 1},
    {"zanikory_mat2_swap_columns", mat2_swap_columns, swapped, 2, 4, 4, 3, 3},
    {"zanikory_mat3_swap_columns", mat3_swap_columns, swapped, 3, 9, 9, 4, 4},
    {"zanikory_mat2_flip_column", mat2_flip_column, flipped, 2, 4, 4, 3, 1},
    {"zanikory_mat3_flip_column", mat3_flip_column, flipped, 3, 9, 9, 4, 1},
    {"zanikory_mat2_set_identity", mat2_set_identity, identity, 2, 4, 4, 1, 1},
    {"zanikory_mat3_set_identity", mat3_set_identity, identity, 3, 9, 9, 1, 1},
    {"zanikory_mat2_index", mat2_index, square_read, 2, 4, 1, 3, 3},
    {"zanikory_mat3_index", mat3_index, square_read, 3, 9, 1, 4, 4},
    {"zanikory_mat2_index_mut", mat2_index_mut, square_written, 2, 4, 4, 3, 3},
    {"zanikory_mat3_index_mut", mat3_index_mut, square_written, 3, 9, 9, 4, 4},
    {"zanikory_sym2_index", sym2_index, packed_read, 2, 3, 1, 3, 3},
    {"zanikory_sym3_index", sym3_index, packed_read, 3, 6, 1, 4, 4},
    {"zanikory_sym2_index_mut", sym2_index_mut, packed_written, 2, 3, 3, 3, 3},
    {"zanikory_sym3_index_mut", sym3_index_mut, packed_written, 3, 6, 6, 4, 4},
};

/* Each input with each i and j, and a pattern as x. */
static int on_move(const struct move *move)
{
    struct kind inside = begin(move->name, "done");
    struct kind outside = begin(move->name, "8: the words as they were, +0 for one");
    for (size_t k = 0; k < inputs(move->numbers); k++) {
        struct numbers a = input(move->numbers, k);
        for (size_t at = 0; at < move->firsts * move->seconds; at++) {
            size_t i = at % move->firsts, j = at / move->firsts;
            uint64_t x = patterns[(k + at) % PATTERNS];
            lend();
            if (move->places == move->numbers)
                memcpy(room + 1, a.doubles, move->numbers * sizeof *room);
            uint8_t expected = move->moved(move->n, i, j, x, a.words, left + 1);
            uint8_t code = move->call(i, j, double_of(x), a.doubles, room + 1);
            judge(expected ? &outside : &inside, code, expected);
        }
    }
    int wrong = end(&inside);
    if (outside.tried)
        wrong += end(&outside);
    return wrong;
}

/* ---- a matrix and a vector to a lent vector: products and solutions */

struct kernel {
    const char *name;
    uint8_t (*call)(const double *a, size_t a_length, double *y, size_t y_length, const double *x,
                    size_t x_length);
    size_t numbers, n;
    int longer; /* whether the vectors may be longer */
    double matrix[9], vector[3], answer[3];
    double too_far; /* a matrix of it makes the answer of a vector of MAX overflow */
};

static const struct kernel kernels[] = {
    {"zanikory_mat2_mul", zanikory_mat2_mul, 4, 2, 0, {1, 3, 2, 4}, {1, 1}, {3, 7}, MAX},
    {"zanikory_mat3_mul", zanikory_mat3_mul, 9, 3, 0,
     {1, 4, 7, 2, 5, 8, 3, 6, 9}, {1, 1, 1}, {6, 15, 24}, MAX},
    {"zanikory_sym3_mul", zanikory_sym3_mul, 6, 3, 1,
     {1, 2, 3, 4, 5, 6}, {-2, -7, 3}, {-4, -10, -25}, MAX},
    {"zanikory_cholesky_2x2_solve", zanikory_cholesky_2x2_solve, 3, 2, 1,
     {2, 1, 2}, {8, 10}, {1.25, 1.5}, TINY},
    {"zanikory_cholesky_3x3_solve", zanikory_cholesky_3x3_solve, 6, 3, 1,
     {2, 1, 2, 1, 1, 2}, {8, 10, 11}, {1, 1, 1}, TINY},
};

/* The call on a y of n places, or more where it may be longer, once for each order of what is lent. */
static void in_each_order(struct kind *kind, const struct kernel *kernel, const double *a,
                          const double *x, uint8_t expected)
{
    size_t n = kernel->n, most = kernel->longer ? 5 : n;
    for (size_t order = 0; order < PATTERNS; order++)
        for (size_t length = n; length <= most; length++) {
            lend();
            if (expected == 0)
                leave(kernel->answer, n);
            judge(kind, kernel->call(a, kernel->numbers, room + 1, length, x, length), expected);
        }
}

static int on_kernel(const struct kernel *kernel)
{
    struct kind done = begin(kernel->name, "done: what lies past the answer stays");
    struct kind lengths = begin(kernel->name, "1 or 2: the lent array as it was");
    struct kind given = begin(kernel->name, "5: the lent array as it was");
    struct kind made = begin(kernel->name, "7: the lent array as it was");
    size_t n = kernel->n, m = kernel->numbers, most = kernel->longer ? 5 : n;
    double a[10] = {0}, x[5] = {0};
    memcpy(a, kernel->matrix, sizeof kernel->matrix);
    memcpy(x, kernel->vector, sizeof kernel->vector);
    in_each_order(&done, kernel, a, x, 0);
    for (size_t a_length = m - 1; a_length <= m + 1; a_length++)
        for (size_t y_length = 0; y_length <= 5; y_length++)
            for (size_t x_length = 0; x_length <= 5; x_length++) {
                int y_right = y_length >= n && y_length <= most;
                int x_right = x_length >= n && x_length <= most;
                if (y_right && x_right && a_length == m)
                    continue;
                lend();
                uint8_t code = kernel->call(a, a_length, room + 1, y_length, x, x_length);
                judge(&lengths, code, y_right ? 1 : 2);
            }
    for (size_t p = 0; p < NOT_FINITE; p++)
        for (size_t place = 0; place < m + n; place++) {
            double *at = place < m ? a + place : x + (place - m), kept = *at;
            uint64_t pattern = patterns[p];
            memcpy(at, &pattern, sizeof pattern);
            in_each_order(&given, kernel, a, x, 5);
            *at = kept;
        }
    for (size_t i = 0; i < m; i++)
        a[i] = kernel->too_far;
    for (size_t i = 0; i < n; i++)
        x[i] = MAX;
    in_each_order(&made, kernel, a, x, 7);
    return end(&done) + end(&lengths) + end(&given) + end(&made);
}

/* ---- the factor over an old one, which is lent and has NaNs */

typedef uint8_t factor(double *l, size_t l_length, const double *a, size_t a_length, uint8_t *pivot);

struct stop {
    const char *what;
    size_t numbers;
    double matrix[6];
    uint8_t code, pivot;
    size_t writes;
    uint64_t written[6];
};

/* A third pivot is NaN where L21 is a zero and L31 an infinity, of either sign. Their product, and so L32, is
   a NaN whose bits the processor chooses: x86-64 sets the sign. L32 is written with those of THE_NAN all the
   same. Size 2 has no 9: where its second number is too large, the pivot behind it is -infinity. */
static const struct stop stops[] = {
    {"done: nothing of the old factor", 3, {4, 2, 5}, 0, 0, 3, {TWO, ONE, TWO}},
    {"6 at pivot 1: the old factor", 3, {-0.0, 1, 1}, 6, 1, 0, {0}},
    {"6 at pivot 2: its last place", 3, {1, 1, 1}, 6, 2, 2, {ONE, ONE}},
    {"done: nothing of the old factor", 6, {4, 2, 5, 2, 3, 6}, 0, 0, 6, {TWO, ONE, TWO, ONE, ONE, TWO}},
    {"6 at pivot 1: the old factor", 6, {-1, 1, 1, 1, 1, 1}, 6, 1, 0, {0}},
    {"6 at pivot 2: its last four places", 6, {1, 1, 1, 1, 1, 1}, 6, 2, 2, {ONE, ONE}},
    {"6 at pivot 3: its last place", 6, {1, 0, 1, 1, 0, 1}, 6, 3, 5, {ONE, 0, ONE, ONE, 0}},
    {"9 by +0 and +infinity: its last place", 6, {TINY, 0.0, 1, LARGE, 0, 1}, 9, 3, 5,
     {ROOT_OF_TINY, 0, ONE, INFINITE, THE_NAN}},
    {"9 by +0 and -infinity: its last place", 6, {TINY, 0.0, 1, -LARGE, 0, 1}, 9, 3, 5,
     {ROOT_OF_TINY, 0, ONE, SIGN | INFINITE, THE_NAN}},
    {"9 by -0 and +infinity: its last place", 6, {TINY, -0.0, 1, LARGE, 0, 1}, 9, 3, 5,
     {ROOT_OF_TINY, SIGN, ONE, INFINITE, THE_NAN}},
    {"9 by -0 and -infinity: its last place", 6, {TINY, -0.0, 1, -LARGE, 0, 1}, 9, 3, 5,
     {ROOT_OF_TINY, SIGN, ONE, SIGN | INFINITE, THE_NAN}},
};

/* The call over an old factor of m numbers, of which l_length are lent. It must write the first words of the
   stop, and the pivot's number over a byte that is none. */
static void over(struct kind *kind, factor *call, size_t m, const struct numbers *old, size_t l_length,
                 const double *a, size_t a_length, const struct stop *stop)
{
    uint8_t pivot = 0xFF;
    lend();
    leave(old->doubles, m);
    memcpy(room, left, sizeof room);
    memcpy(left + 1, stop->written, stop->writes * sizeof *left);
    judge(kind, call(room + 1, l_length, a, a_length, &pivot), stop->code);
    if (pivot != stop->pivot) {
        printf("%s: pivot %d, expected %d\n", kind->function, pivot, stop->pivot);
        kind->wrong++;
    }
}

static int on_factor(const char *name, factor *call, size_t m)
{
    static const struct stop not_finite = {.code = 5}, input_length = {.code = 1}, output_length = {.code = 2};
    struct kind given = begin(name, "5: the old factor");
    struct kind lengths = begin(name, "1 or 2: the old factor");
    int wrong = 0;
    for (size_t i = 0; i < sizeof stops / sizeof stops[0]; i++) {
        struct kind kind = begin(name, stops[i].what);
        for (size_t k = 0; k < inputs(m) && stops[i].numbers == m; k++) {
            struct numbers l = input(m, k);
            over(&kind, call, m, &l, m, stops[i].matrix, m, &stops[i]);
        }
        wrong += kind.tried ? end(&kind) : 0;
    }
    for (size_t k = 0; k < inputs(m); k++) {
        struct numbers l = input(m, k);
        for (size_t at = 0; at < NOT_FINITE * m; at++) {
            struct numbers a = input(m, at);
            over(&given, call, m, &l, m, a.doubles, m, &not_finite);
        }
        /* each length one less, right or one more */
        for (size_t at = 0; at < 9; at++) {
            size_t l_length = m - 1 + at % 3, a_length = m - 1 + at / 3;
            const struct stop *stop = l_length != m ? &output_length : &input_length;
            if (l_length != m || a_length != m)
                over(&lengths, call, m, &l, l_length, l.doubles, a_length, stop);
        }
    }
    return wrong + end(&given) + end(&lengths);
}

/* ---- a matrix to the numbers of an answer: eigenvalues and singular values */

struct spectrum {
    const char *name;
    uint8_t (*call)(const double *a, size_t a_length, double *out, size_t out_length);
    size_t numbers, places;
    double matrix[9], answer[30];
    double too_far[9]; /* its answer is not finite */
};

static const struct spectrum spectra[] = {
    {"zanikory_eigen_3x3", zanikory_eigen_3x3, 6, 18,
     {3, 0, 1, 0, 0, 2}, {1, 2, 3, 0, 1, 0, 0, 0, 1, 1, 0, 0, 3, 0, 1, 0, 0, 2},
     {MAX, MAX, MAX, MAX, MAX, MAX}},
    {"zanikory_svd_3x3", zanikory_svd_3x3, 9, 30,
     {1, 0, 0, 0, -2, 0, 0, 0, 3},
     {3, 2, 1, 0, 0, 1, -0.0, -1, -0.0, 1, 0, 0, 0, 0, 1, 0, 1, 0, 1, 0, 0, 1, 0, 0, 0, -2, 0, 0, 0, 3},
     {MAX, MAX, MAX, MAX, MAX, MAX, MAX, MAX, MAX}},
};

static int on_spectrum(const struct spectrum *spectrum)
{
    struct kind done = begin(spectrum->name, "done: what lies past out stays");
    struct kind lengths = begin(spectrum->name, "1 or 2: out as it was");
    struct kind given = begin(spectrum->name, "5: out as it was");
    struct kind made = begin(spectrum->name, "7: out as it was");
    size_t m = spectrum->numbers, places = spectrum->places;
    for (size_t order = 0; order < PATTERNS; order++) {
        lend();
        leave(spectrum->answer, places);
        judge(&done, spectrum->call(spectrum->matrix, m, room + 1, places), 0);
        lend();
        judge(&made, spectrum->call(spectrum->too_far, m, room + 1, places), 7);
    }
    for (size_t k = 0; k < inputs(m); k++) {
        struct numbers a = input(m, k);
        for (size_t a_length = 0; a_length <= m + 1; a_length++)
            for (size_t out_length = 0; out_length <= places + 1; out_length++) {
                if (a_length == m && out_length == places)
                    continue;
                lend();
                uint8_t code = spectrum->call(a.doubles, a_length, room + 1, out_length);
                judge(&lengths, code, out_length != places ? 2 : 1);
            }
        if (k >= NOT_FINITE * m)
            continue;
        lend();
        judge(&given, spectrum->call(a.doubles, m, room + 1, places), 5);
    }
    return end(&done) + end(&lengths) + end(&given) + end(&made);
}

int main(void)
{
    int wrong = 0;
    printf("%-28s  %-42s  %s\n", "function", "kind of call", "tried");
    for (size_t i = 0; i < sizeof moves / sizeof moves[0]; i++)
        wrong += on_move(&moves[i]);
    for (size_t i = 0; i < sizeof kernels / sizeof kernels[0]; i++)
        wrong += on_kernel(&kernels[i]);
    wrong += on_factor("zanikory_cholesky_2x2_factor", zanikory_cholesky_2x2_factor, 3);
    wrong += on_factor("zanikory_cholesky_3x3_factor", zanikory_cholesky_3x3_factor, 6);
    for (size_t i = 0; i < sizeof spectra / sizeof spectra[0]; i++)
        wrong += on_spectrum(&spectra[i]);
    printf("%d wrong\n", wrong);
    return wrong != 0;
}
