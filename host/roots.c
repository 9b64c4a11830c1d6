/* roots COUNT SEED TABLE: takes the roots of at least COUNT doubles by the library and by the processor, and
   compares their bits. For any NaN of the processor's the library's one NaN is due.

   The doubles are in groups, most of them where a root is hard to round or to guess. A line for each group says
   how many roots were taken, how many are wrong, and how many are by digits: of normal numbers above 0 for which
   the guess does not pass its test, so that the digits are worked out one by one. The library does not show this.
   So the guess and its test stand here once more, in the arithmetic of crates/float/src/guess53.rt and tried53.rt,
   with the numbers of TABLE, which is crates/float/src/curves53.rt. A guess that passes its test and is not the
   root is wrong too.

   Ends with 1 if a root is wrong, if a group has none, or if so many are by digits that the guess is hardly tried;
   and with 2 if it cannot begin. */
#include <stddef.h>
#include <stdint.h>
#include <stdio.h>
#include <string.h>

#include "bits.h"
#include "random.h"
#include "shown.h"

/* The weight in a pattern of the exponent's field, which is that of a significand's leading digit. */
#define LEADING 0x10000000000000u
#define FOUR 0x4010000000000000u

enum { INTERVALS = 64, CURVES = 8, WRONG_SHOWN = 5 };

/* Holds the square of a significand. */
__extension__ typedef unsigned __int128 wide;

struct group {
    const char *name;
    /* takes some roots, and is called for the turns 0, 1, 2 .. */
    void (*take)(struct group *group, uint64_t turn);
    uint64_t turns; /* so many, or if it is 0 as many as make up the group's share of COUNT */
    uint64_t roots, wrong, by_digits;
};

/* ---- the guess and its test, once more */

static uint64_t curves_in[INTERVALS][CURVES];

/* Each number is on a line with its name, interval by interval. Gives 0 if the file has others, or not all. */
static int read_curves(const char *path)
{
    static const char *const names[CURVES] = {"r0", "r1", "r2", "r3", "w0", "w1", "w2", "w3"};
    size_t found = 0;
    char line[200], name[3];
    unsigned long long number;
    FILE *file = fopen(path, "r");
    if (!file)
        return 0;
    while (fgets(line, sizeof line, file)) {
        if (sscanf(line, " %2[rw0123]: 0x%llx", name, &number) != 2)
            continue;
        if (found == INTERVALS * CURVES || memcmp(name, names[found % CURVES], sizeof name) != 0) {
            found = 0;
            break;
        }
        curves_in[found / CURVES][found % CURVES] = number;
        found++;
    }
    fclose(file);
    return found == INTERVALS * CURVES;
}

struct quick {
    int sure;
    uint64_t bits;
};

/* tried_by of tried53.rt: the digits of the root of m * 2^42. a is a guess at the first of them, and the inverse gives
   the others. */
static struct quick tried_by(uint64_t m, uint64_t a, uint64_t inverse)
{
    struct quick digits = {0, 0};
    uint64_t r = m - a * a;
    if (r >= (uint64_t)1 << 34)
        return digits;
    uint64_t e = (r * inverse + ((uint64_t)1 << 39)) >> 40;
    uint64_t q = (a << 21) + e, square = e * e;
    uint64_t above = (q + square) >> 22, below = (q - 1 - square) >> 22;
    uint64_t beyond = (r << 20) + below - a * e;
    digits.sure = beyond <= above + below;
    digits.bits = q;
    return digits;
}

/* quick_root of root.rt with guess_for of guess53.rt, for the pattern of a normal number above 0. */
static struct quick quick_root(uint64_t b)
{
    const uint64_t *r = curves_in[b >> 47 & 63], *w = r + 4;
    uint64_t d = b >> 15 & 0xFFFFFFFFu, d2 = d * d >> 32, d3 = d2 * d >> 32;
    uint64_t root = r[0] + r[1] * d - r[2] * d2 + r[3] * d3;
    uint64_t inverse = w[0] - w[1] * d + w[2] * d2 - w[3] * d3;
    uint64_t m = b % (2 * LEADING), field = (b / LEADING - 1) / 2 + 511;
    if (m < LEADING)
        m = 2 * m + 2 * LEADING;
    struct quick quick = tried_by(m << 10, root >> 32, inverse >> 35);
    quick.bits += field * LEADING;
    return quick;
}

/* ---- a root, and what is due */

/* The instruction itself: sqrt may be a function of some library. */
static double processor_root(double x)
{
    double root;
    __asm__("sqrtsd %1, %0" : "=x"(root) : "x"(x));
    return root;
}

static void wrong(struct group *group, const char *what, uint64_t b, uint64_t came, uint64_t due)
{
    group->wrong++;
    if (group->wrong <= WRONG_SHOWN)
        printf("%s: of %016llX %s is %016llX, and %016llX is due\n", group->name, (unsigned long long)b, what,
               (unsigned long long)came, (unsigned long long)due);
}

static void try(struct group *group, uint64_t b)
{
    double x = double_of(b), root = processor_root(x);
    uint64_t due = root == root ? bits_of(root) : THE_NAN, came = bits_of(zanikory_root(x));
    struct quick quick = {1, due}; /* where there is no guess */
    if (b >= LEADING && b < INFINITE)
        quick = quick_root(b);
    group->roots++;
    group->by_digits += !quick.sure;
    if (came != due)
        wrong(group, "the root", b, came, due);
    else if (quick.sure && quick.bits != due)
        wrong(group, "the guess that passes", b, quick.bits, due);
}

/* The patterns from b + first to b + last. */
static void try_beside(struct group *group, uint64_t b, int first, int last)
{
    for (int i = first; i <= last; i++)
        try(group, b + (uint64_t)i);
}

/* ---- random numbers */

static uint64_t state;

static uint64_t any(void)
{
    return random_word(&state);
}

static uint64_t any_below(uint64_t bound)
{
    return any() % bound;
}

/* A number of so many digits, 1 to 64. */
static uint64_t any_of(uint64_t digits)
{
    return (any() | SIGN) >> (64 - digits);
}

/* The pattern of m at a random exponent, such that the digits of its root are those of the root of m * 2^52. m has
   53 digits, or 54, which is a number of 53 with the odd bit of the exponent: the last is then dropped. */
static uint64_t scaled(uint64_t m)
{
    uint64_t odd = 1 + 2 * any_below(1023);
    return m < 2 * LEADING ? (odd - 1) * LEADING + m : odd * LEADING + m / 2;
}

/* ---- the groups */

static void any_pattern(struct group *group, uint64_t turn)
{
    (void)turn;
    try(group, any());
}

static void normal(struct group *group, uint64_t turn)
{
    try(group, (1 + turn % 2046) * LEADING + any_below(LEADING));
}

/* The square of 53 digits has more of them than a double. It is between the doubles at 0 and 1. */
static void near_square(struct group *group, uint64_t turn)
{
    uint64_t q = any_of(53);
    (void)turn;
    try_beside(group, scaled((uint64_t)((wide)q * q >> 52)), -1, 2);
}

/* The square of 26 digits is a double. Some end in zeros, so that all shorter ones are among them. */
static void near_short_square(struct group *group, uint64_t turn)
{
    uint64_t zeros = turn % 26, k = any_of(26 - zeros) << zeros;
    try_beside(group, scaled(4 * k * k), -1, 1);
}

/* The middle between q and q + 1 has the square q * q + q + 1/4, which is between the doubles at 0 and 1. */
static void near_middle(struct group *group, uint64_t turn)
{
    uint64_t q = any_of(53);
    (void)turn;
    try_beside(group, scaled((uint64_t)(((wide)q * q + q) >> 52)), 0, 1);
}

/* An odd number whose square is c modulo 2^55, for a c that is 1 modulo 8: each digit of it makes one more digit of
   the square right. */
static uint64_t odd_root(uint64_t c)
{
    uint64_t s = 1;
    for (int i = 3; i < 55; i++)
        s += ((s * s ^ c) >> i & 1) << (i - 1);
    return s;
}

/* s has 54 digits and is twice a middle, and its square is very near to m * 2^54. If m has 54 digits, only an even one
   is a double. */
static void try_middle(struct group *group, uint64_t s)
{
    uint64_t m = (uint64_t)(((wide)s * s + 2 * LEADING) >> 54);
    if (m < 2 * LEADING || m % 2 == 0)
        try(group, scaled(m));
}

/* The hardest to round: their roots are as near to a middle as those of doubles come, on either side of it. The square
   of s is 1 modulo 2^54, but for a small multiple of 8. */
static void nearest_to_middle(struct group *group, uint64_t turn)
{
    uint64_t eighth = any_of(1 + turn / 2 % 20);
    uint64_t s = odd_root(1 + 8 * (turn % 2 == 0 ? eighth : 0 - eighth));
    try_middle(group, 2 * LEADING + s % (2 * LEADING));
    try_middle(group, 2 * LEADING + (0 - s) % (2 * LEADING));
}

static void take_sums(struct group *group, double t)
{
    try(group, bits_of(1 + t));
    try(group, bits_of(1 - t));
    try(group, bits_of(1 + t * t)); /* a rotation takes the root of this */
}

/* With t from 2^-1 down to 2^-53, powers of 2 and others. And on both sides of 1, 2 and 4, at any distance. */
static void near_one(struct group *group, uint64_t turn)
{
    uint64_t power = ONE - (1 + turn % 53) * LEADING, far = any_of(1 + turn % 52);
    take_sums(group, double_of(power));
    take_sums(group, double_of(power + any_below(LEADING)));
    for (uint64_t b = ONE; b <= FOUR; b += LEADING) {
        try(group, b - far);
        try(group, b + far);
    }
}

/* Where the table goes over to other curves, and the first and the last d of an interval, where a curve is as far
   from the root as it gets, or touches it. */
static void end_of_interval(struct group *group, uint64_t turn)
{
    uint64_t interval = turn % INTERVALS, size = LEADING / 32, same_d = 0x8000;
    uint64_t field = 2 + 2 * any_below(1022) + interval / 32;
    uint64_t first = field * LEADING + interval % 32 * size;
    try_beside(group, first, -1, 1);
    try(group, first + any_below(same_d));
    try(group, first + size - 1 - any_below(same_d));
}

static void subnormal(struct group *group, uint64_t turn)
{
    try(group, any_of(1 + turn % 52));
}

/* The turn is a sign and an exponent's field. The first patterns with it, those in the middle and the last: zeros,
   infinities, quiet NaNs and others, the smallest and the largest of each kind. And a NaN with any payload. */
static void special(struct group *group, uint64_t turn)
{
    try_beside(group, turn * LEADING, 0, 1);
    try_beside(group, turn * LEADING + LEADING / 2, -1, 1);
    try_beside(group, turn * LEADING + LEADING, -2, -1);
    try(group, (turn % 2 == 0 ? 0 : SIGN) + INFINITE + any_of(1 + turn / 2 % 52));
}

static struct group groups[] = {
    {"any pattern", any_pattern, 0, 0, 0, 0},
    {"normals of all exponents", normal, 0, 0, 0, 0},
    {"near squares", near_square, 0, 0, 0, 0},
    {"near short squares", near_short_square, 0, 0, 0, 0},
    {"near middles", near_middle, 0, 0, 0, 0},
    {"nearest to middles", nearest_to_middle, 0, 0, 0, 0},
    {"near 1, 2 and 4", near_one, 0, 0, 0, 0},
    {"ends of intervals", end_of_interval, 0, 0, 0, 0},
    {"subnormals", subnormal, 0, 0, 0, 0},
    {"special ones", special, 2 * 2048, 0, 0, 0},
};

enum { GROUPS = sizeof groups / sizeof groups[0] };

/* ---- all of them */

/* Gives 1 if a root is wrong, or if there is none. */
static int run_group(struct group *group, uint64_t share)
{
    for (uint64_t turn = 0; group->turns > 0 ? turn < group->turns : group->roots < share; turn++)
        group->take(group, turn);
    printf("%-24s  %12llu  %8llu  %10llu\n", group->name, (unsigned long long)group->roots,
           (unsigned long long)group->wrong, (unsigned long long)group->by_digits);
    return group->wrong != 0 || group->roots == 0;
}

static int number_of(const char *word, uint64_t *number)
{
    unsigned long long read;
    char more;
    if (*word < '0' || *word > '9' || sscanf(word, "%llu%c", &read, &more) != 1)
        return 0;
    *number = read;
    return 1;
}

int main(int words, char **word)
{
    uint64_t count = 0, roots = 0, wrongs = 0, by_digits = 0;
    int failed = 0;
    if (words != 4 || !number_of(word[1], &count) || !number_of(word[2], &state)) {
        fprintf(stderr, "usage: roots COUNT SEED TABLE\n");
        return 2;
    }
    if (!read_curves(word[3])) {
        fprintf(stderr, "roots: %s has not the %d curves of crates/float/src/curves53.rt\n", word[3], INTERVALS);
        return 2;
    }
    printf("%-24s  %12s  %8s  %10s\n", "group", "roots", "wrong", "by digits");
    for (size_t i = 0; i < GROUPS; i++) {
        failed |= run_group(&groups[i], count / (GROUPS - 1) + (count % (GROUPS - 1) != 0));
        roots += groups[i].roots;
        wrongs += groups[i].wrong;
        by_digits += groups[i].by_digits;
    }
    printf("%llu roots, %llu wrong, %llu by digits\n", (unsigned long long)roots, (unsigned long long)wrongs,
           (unsigned long long)by_digits);
    if (by_digits > roots / 10)
        printf("more than a tenth are by digits: the guess is of little use\n");
    return failed || by_digits > roots / 10;
}
