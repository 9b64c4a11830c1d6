/* The C entries on tallies, for programs in C (C99) and C++ (C++11) on x86-64. Every argument has an answer.
   They are in target/staticlib/libcounts.a, which `tools/build counts` writes. A program may be linked with
   the libraries of zanikory.h too: no name is in two of them.

   A tally counts the answers of a file: for each kind how many have each code, and how many of those with
   code 0 are settled; for kinds 2 and 4 how many made 0, 1, up to 25 rotations; the foreign records; and the
   bytes left over behind the last whole record.

   A record is foreign, and counted nowhere else, if its code is not 0, 1, 3 to 7 or 9, or if its code is 0
   and one of these holds: its kind is not 1 to 8; byte 7 is above 1; byte 6 is above 25, or above 0 for
   another kind than 2 and 4. */
#ifndef ZANIKORY_TALLY_H
#define ZANIKORY_TALLY_H

#include "zanikory.h"

#ifdef __cplusplus
extern "C" {
#endif

/* ---- the counts

   A tally is an array of 144 counts of 64 bits:

     0..90     nine rows of ten counts. Row 0 is of all kinds that are not 1 to 8, and the others are of
               the kind with their number. A row has the records with each code, and then the answers with
               code 0 that are settled and that are not.
     90..142   for each number of rotations the answers of kind 2 that made so many, and those of kind 4
     142       foreign records
     143       bytes left over */

#define ZANIKORY_TALLY_SIZE 144

/* A column of a row. */
enum zanikory_tally_column {
    ZANIKORY_TALLY_CODE_0 = 0,
    ZANIKORY_TALLY_CODE_1 = 1,
    ZANIKORY_TALLY_CODE_3 = 2,
    ZANIKORY_TALLY_CODE_4 = 3,
    ZANIKORY_TALLY_CODE_5 = 4,
    ZANIKORY_TALLY_CODE_6 = 5,
    ZANIKORY_TALLY_CODE_7 = 6,
    ZANIKORY_TALLY_CODE_9 = 7,
    ZANIKORY_TALLY_SETTLED = 8,
    ZANIKORY_TALLY_UNSETTLED = 9
};

#define ZANIKORY_TALLY_ROWS 9
#define ZANIKORY_TALLY_COLUMNS 10
#define ZANIKORY_TALLY_OTHER_ROW 0
#define ZANIKORY_TALLY_AT(row, column) (ZANIKORY_TALLY_COLUMNS * (row) + (column))

#define ZANIKORY_TALLY_MOST_ROTATIONS 25
#define ZANIKORY_TALLY_ROTATIONS_2_AT(rotations) (90 + 2 * (rotations)) /* of kind 2 */
#define ZANIKORY_TALLY_ROTATIONS_4_AT(rotations) (91 + 2 * (rotations)) /* of kind 4 */

#define ZANIKORY_TALLY_FOREIGN_AT 142
#define ZANIKORY_TALLY_LEFT_OVER_AT 143

/* ---- the calls

   counts are those of the tally that is changed, and n is how many there are. Each call gives a code:
     0    done
     1    answer or more has a wrong length: the counts are as they were
     2    n is not 144: the counts are as they were, and this comes before 1
     14   a count would pass 64 bits: all counts are 0

   The caller keeps that no pointer is null, that each is valid for its length, 0 included, that counts and
   more are aligned as a uint64_t is, and that what is changed overlaps nothing else; nothing of that can be
   checked here. Bytes need no alignment. Nothing else is read or written, and no memory is kept from one
   call to the next.

       uint64_t counts[ZANIKORY_TALLY_SIZE];
       zanikory_tally_clear(counts, ZANIKORY_TALLY_SIZE);
       if (zanikory_tally_file(counts, ZANIKORY_TALLY_SIZE, answers, length) == ZANIKORY_CODE_DONE)
           unsettled = counts[ZANIKORY_TALLY_AT(ZANIKORY_KIND_EIGEN_3X3, ZANIKORY_TALLY_UNSETTLED)]; */

/* The empty tally: all counts are 0. */
uint8_t zanikory_tally_clear(uint64_t *counts, size_t n);

/* One answer more, of 176 bytes. */
uint8_t zanikory_tally_record(uint64_t *counts, size_t n, const uint8_t *answer, size_t answer_length);

/* The answers of a file more, of any length, and its bytes left over. A file that is cut behind a whole
   answer may be counted part by part. */
uint8_t zanikory_tally_file(uint64_t *counts, size_t n, const uint8_t *answers, size_t answers_length);

/* The tally of a file, whatever the counts were. */
uint8_t zanikory_tally_of(uint64_t *counts, size_t n, const uint8_t *answers, size_t answers_length);

/* Another tally more, of 144 counts. */
uint8_t zanikory_tally_add(uint64_t *counts, size_t n, const uint64_t *more, size_t more_length);

#ifdef __cplusplus
}
#endif

#endif
