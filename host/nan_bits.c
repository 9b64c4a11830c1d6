/* Shows the bits that root and signum hand to a C program, one line for each call, and ends with 1 if
   any differ from those expected. The promises of the forms on doubles say NaN and not which, so its
   bits are shown here; those of the forms on bits are promised, and shown beside them. */
#include <stdint.h>
#include <stdio.h>

#include "bits.h"
#include "shown.h"

#define MINUS_ONE 0xBFF0000000000000u

enum column { INPUT, ROOT, SIGNUM };

struct row {
    const char *name;
    uint64_t bits[3];
};

/* volatile: each pattern is read when the program runs, so the compiler can work out no call and no
   conversion beforehand. */
static const volatile struct row rows[] = {
    {"-1", {MINUS_ONE, THE_NAN, MINUS_ONE}},
    {"-infinity", {0xFFF0000000000000u, THE_NAN, MINUS_ONE}},
    {"quiet NaN, sign, payload", {0xFFFC0000DEADBEEFu, THE_NAN, THE_NAN}},
    {"signalling NaN", {0x7FF0000000000001u, THE_NAN, THE_NAN}},
    {"+0", {0x0000000000000000u, 0x0000000000000000u, ONE}},
    {"-0", {0x8000000000000000u, 0x8000000000000000u, MINUS_ONE}},
    {"4", {0x4010000000000000u, 0x4000000000000000u, ONE}},
    {"+infinity", {0x7FF0000000000000u, 0x7FF0000000000000u, ONE}},
};

/* Hands back what it is given. Its lines show that the host's own way into a call and back keeps every
   bit, so that a signalling NaN arrives as one. */
static double host_same(double x)
{
    return x;
}

/* Prints the line of one call, and gives 1 if the answer is wrong. */
static int report(const char *function, const struct row *row, uint64_t answer, uint64_t expected)
{
    printf("%-20s  %-24s  %016llX  %016llX  %016llX  %s\n", function, row->name,
           (unsigned long long)row->bits[INPUT], (unsigned long long)answer,
           (unsigned long long)expected, answer == expected ? "ok" : "WRONG");
    return answer != expected;
}

/* The function is reached through a volatile pointer, so that it is called as it stands, and never
   unfolded here. */
static int on_doubles(const char *name, double (*function)(double), enum column expected)
{
    double (*volatile called)(double) = function;
    int wrong = 0;
    for (size_t i = 0; i < sizeof rows / sizeof rows[0]; i++) {
        struct row row = rows[i];
        uint64_t answer = bits_of(called(double_of(row.bits[INPUT])));
        wrong += report(name, &row, answer, row.bits[expected]);
    }
    return wrong;
}

static int on_bits(const char *name, uint64_t (*function)(uint64_t), enum column expected)
{
    uint64_t (*volatile called)(uint64_t) = function;
    int wrong = 0;
    for (size_t i = 0; i < sizeof rows / sizeof rows[0]; i++) {
        struct row row = rows[i];
        wrong += report(name, &row, called(row.bits[INPUT]), row.bits[expected]);
    }
    return wrong;
}

int main(void)
{
    int wrong = 0;
    printf("%-20s  %-24s  %-16s  %-16s  %s\n", "function", "input", "input bits", "answer bits",
           "expected bits");
    wrong += on_doubles("host_same", host_same, INPUT);
    wrong += on_doubles("zanikory_root", zanikory_root, ROOT);
    wrong += on_doubles("zanikory_signum", zanikory_signum, SIGNUM);
    wrong += on_bits("zanikory_root_bits", zanikory_root_bits, ROOT);
    wrong += on_bits("zanikory_signum_bits", zanikory_signum_bits, SIGNUM);
    printf("%d wrong\n", wrong);
    return wrong != 0;
}
