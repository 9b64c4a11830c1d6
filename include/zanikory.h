/* The C entries of the proved libraries, for programs in C (C99) and C++ (C++11) on x86-64. Every argument
   has an answer.

   The entry on records is in target/staticlib/librecord.a, which `tools/build record` writes. Those on
   doubles are in target/staticlib/libexports.a, which `tools/build exports` writes. The one on rows is in
   target/staticlib/librow.a, which `tools/build row` writes. One program may be linked with all of them:
   no name is in two.

   All of them want the floating-point state that a program starts with: rounding to nearest, and
   subnormals kept. The bits flush-to-zero and denormals-are-zero are off, and stay off as long as nothing
   of the program is compiled or linked with -ffast-math. */
#ifndef ZANIKORY_H
#define ZANIKORY_H

#include <stddef.h>
#include <stdint.h>

#ifdef __cplusplus
extern "C" {
#endif

/* ---- codes */

/* What an entry answers. With more than one reason to refuse, the order is 2, 1, 3, 4, 5, then 6 or 9, then
   7. 6 and 9 never meet: a factor stops at the first pivot that has no root, since it is at most zero or
   NaN. The worked matrix of a 3x3 call counts among the numbers of its answer, though no record has it. 10
   and 11 are of rows alone, and 10 comes before 11; 14 is of tallies alone (zanikory_tally.h). */
enum zanikory_code {
    ZANIKORY_CODE_DONE = 0,              /* none of the others */
    ZANIKORY_CODE_INPUT_LENGTH = 1,      /* an input has a wrong length */
    ZANIKORY_CODE_OUTPUT_LENGTH = 2,     /* what is to be written has a wrong length */
    ZANIKORY_CODE_UNKNOWN_KIND = 3,      /* the kind of a request is not 1 to 8 */
    ZANIKORY_CODE_RESERVED = 4,          /* a reserved byte or an unused number is not all zero bits, or the
                                            kind has no such way */
    ZANIKORY_CODE_INPUT_NOT_FINITE = 5,  /* a used input number is NaN or infinite */
    ZANIKORY_CODE_PIVOT = 6,             /* a pivot is at most zero */
    ZANIKORY_CODE_ANSWER_NOT_FINITE = 7, /* a number of the answer is NaN or infinite, as is a value that
                                            overflows when it is multiplied back */
    ZANIKORY_CODE_NAN_PIVOT = 9,         /* a pivot is NaN */
    ZANIKORY_CODE_ROWS_UNEQUAL = 10,     /* rows of unequal length */
    ZANIKORY_CODE_ROW_TOO_LONG = 11,     /* a row of more than 64 places */
    ZANIKORY_CODE_COUNT_TOO_LARGE = 14   /* a count would pass 64 bits */
};

/* ---- records

   A request and an answer are bytes of one fixed size, with no header. Numbers are little-endian, as
   x86-64 has them, so memcpy moves a uint32_t or a double in or out; a record needs no alignment.

   A request:                                      An answer:
     0..4     event number, uint32_t                 0..4      event number, the request's
     4        kind                                   4         kind, the request's
     5        way                                    5         code
     6..8     reserved, zero                         6         rotations, or the pivot's number
     8..80    nine doubles                           7         settled
     80..104  three doubles                          8..32     values, three doubles
                                                     32..104   left, nine doubles
                                                     104..176  right, nine doubles

   The matrix stands in the first of the nine doubles: a symmetric one as its upper triangle, column by
   column (A11, A12, A22, A13, A23, A33), another one column by column. The right-hand side of a solution
   stands in the first of the three. Reserved bytes and numbers that the kind does not use are all zero
   bits: -0 is not.

   Places of an answer that its kind does not use are zero bytes. Byte 6 is the number of rotations for
   kinds 2 and 4, the number of the refused pivot (1, 2 or 3) with codes 6 and 9, and else 0. A pivot is
   NaN only as the third one, so 9 is of kinds 6 and 8 alone.

   With code 0 byte 7 is 1, but for two cases, in which it is 0: 25 rotations did not settle a matrix of
   kind 2 or 4, and the numbers are those of the 25th; or a rotation of kinds 1 to 4 was blind. It is blind
   if its off-diagonal number is not 0, and its two diagonal numbers differ (0 and -0 do not) and are both
   under 2^-52 in magnitude: it turns by 45 degrees whatever they are, so something is left off the diagonal.
   For kinds 3 and 4 these are the numbers of the symmetrised pair. In the scaled way all this is said of the
   scaled matrix. */

#define ZANIKORY_REQUEST_SIZE 104
#define ZANIKORY_REQUEST_EVENT_AT 0
#define ZANIKORY_REQUEST_KIND_AT 4
#define ZANIKORY_REQUEST_WAY_AT 5
#define ZANIKORY_REQUEST_RESERVED_AT 6
#define ZANIKORY_REQUEST_NINE_AT 8
#define ZANIKORY_REQUEST_THREE_AT 80

#define ZANIKORY_ANSWER_SIZE 176
#define ZANIKORY_ANSWER_EVENT_AT 0
#define ZANIKORY_ANSWER_KIND_AT 4
#define ZANIKORY_ANSWER_CODE_AT 5
#define ZANIKORY_ANSWER_ROTATIONS_AT 6
#define ZANIKORY_ANSWER_PIVOT_AT 6
#define ZANIKORY_ANSWER_SETTLED_AT 7
#define ZANIKORY_ANSWER_VALUES_AT 8
#define ZANIKORY_ANSWER_LEFT_AT 32
#define ZANIKORY_ANSWER_RIGHT_AT 104

/* The kind of a request, how many it uses of the nine doubles and of the three, and what its answer has.
   A 2x2 matrix stands in the first four places, a packed factor of a 2x2 in the first three. */
enum zanikory_kind {
    ZANIKORY_KIND_EIGEN_2X2 = 1,            /* 3, 0: eigenvalues ascending; their vectors left */
    ZANIKORY_KIND_EIGEN_3X3 = 2,            /* 6, 0: the same */
    ZANIKORY_KIND_SVD_2X2 = 3,              /* 4, 0: singular values descending; U left, V right */
    ZANIKORY_KIND_SVD_3X3 = 4,              /* 9, 0: the same */
    ZANIKORY_KIND_CHOLESKY_2X2 = 5,         /* 3, 0: the factor, packed as the matrix is, left */
    ZANIKORY_KIND_CHOLESKY_3X3 = 6,         /* 6, 0: the same */
    ZANIKORY_KIND_FACTOR_AND_SOLVE_2X2 = 7, /* 3, 2: the factor left, the solution in values */
    ZANIKORY_KIND_FACTOR_AND_SOLVE_3X3 = 8  /* 6, 3: the same */
};

/* The way in which a matrix of kinds 1 to 4 is worked, byte 5 of a request.

   In the scaled way, the default, the used numbers are divided by the power of two that brings the largest
   magnitude among them into 1 up to, but not including, 2. That matrix is worked, and the values are
   multiplied back by the same power. Both steps round each number once. So a matrix in any unit is worked as
   exactly as one near 1. A zero matrix is not scaled. Vectors, rotations and the mark are those of the
   scaled matrix. A value that overflows when it is multiplied back gives 7.

   In the old way the matrix is worked as it is given, by the same steps. What counts as nothing is then under
   2^-44, and what a rotation does not look at is under 2^-52, whatever the unit is.

   The other kinds have the way 0 alone, and are not scaled. The calls below, on doubles and on rows, have no
   way: they work a matrix as it is given. */
enum zanikory_way {
    ZANIKORY_WAY_SCALED = 0,
    ZANIKORY_WAY_OLD = 1
};

/* Answers one request, and gives the code. It is byte 5 of the answer too, unless it is 2. What it leaves:
     0               the whole answer
     1               zeros, but for the code: the request does not have 104 bytes
     2               the answer as it was: it does not have 176 bytes
     3, 4, 5, 7      the request's event number and kind, the code, and zeros
     6, 9            the same, and the pivot's number

   The caller keeps that neither pointer is null, that each is valid for its length, 0 included, and that
   the two do not overlap; nothing of that can be checked here. Nothing else is read or written, and no
   memory is kept from one call to the next: threads may call it at the same time.

       uint8_t request[ZANIKORY_REQUEST_SIZE] = {7, 0, 0, 0, ZANIKORY_KIND_EIGEN_2X2};
       uint8_t answer[ZANIKORY_ANSWER_SIZE];
       double matrix[3] = {2, 1, 2}, values[2];
       memcpy(request + ZANIKORY_REQUEST_NINE_AT, matrix, sizeof matrix);
       if (zanikory_answer_record(request, sizeof request, answer, sizeof answer) == ZANIKORY_CODE_DONE)
           memcpy(values, answer + ZANIKORY_ANSWER_VALUES_AT, sizeof values);

   Here the values are 1 and 3. */
uint8_t zanikory_answer_record(const uint8_t *request, size_t request_length, uint8_t *answer,
                               size_t answer_length);

/* ---- kernels on arrays of doubles

   An array is a pointer that is not null, and a length in doubles. It is valid for its length, and
   what is written overlaps nothing else; nothing of that can be checked here. The answer is a code,
   and never 3 or 4. 2 comes before 1, and 1 before the others. Whatever is refused with 1 or 2 writes
   nothing to an array.

   A square matrix of size n has n * n numbers, column by column. A symmetric one has its upper
   triangle, column by column: A11, A12, A22, and A13, A23, A33.

   Numbers that stay keep every bit, those of a NaN too, and the NaN that comes with 9 has the bits
   7FF8000000000000: the promise says NaN, and host/nan_moves.c shows the bits. */

/* y = A x, where y and x have as many places as the matrix has rows. What is refused leaves y. */
uint8_t zanikory_mat2_mul(const double *a, size_t a_length, double *y, size_t y_length,
                          const double *x, size_t x_length);
uint8_t zanikory_mat3_mul(const double *a, size_t a_length, double *y, size_t y_length,
                          const double *x, size_t x_length);

/* The same of a symmetric matrix, where y and x may be longer: the first three places count. */
uint8_t zanikory_sym3_mul(const double *h, size_t h_length, double *y, size_t y_length,
                          const double *x, size_t x_length);

/* The Cholesky factor L of A = L L', packed as A is, where an old factor stands; l and a have 3 or 6
   places. With 0 all of l is new. With 6 and 9 the places before the refused pivot are new and the rest
   are the old factor's; with 5 all are. With 9, which the 2x2 does not give, it is the third pivot, L21 is
   a zero, L31 is infinite and L32 is NaN. 7 is not given: a factor whose pivots all have roots is finite.
   One byte is written at pivot: the number of the refused pivot (1, 2 or 3) with 6 and 9, and else 0. It is
   not null. */
uint8_t zanikory_cholesky_2x2_factor(double *l, size_t l_length, const double *a, size_t a_length,
                                     uint8_t *pivot);
uint8_t zanikory_cholesky_3x3_factor(double *l, size_t l_length, const double *a, size_t a_length,
                                     uint8_t *pivot);

/* The solution x of L L' x = b. x and b may be longer: the first 2 or 3 places count. What is refused
   leaves x. */
uint8_t zanikory_cholesky_2x2_solve(const double *l, size_t l_length, double *x, size_t x_length,
                                    const double *b, size_t b_length);
uint8_t zanikory_cholesky_3x3_solve(const double *l, size_t l_length, double *x, size_t x_length,
                                    const double *b, size_t b_length);

/* Eigenvalues of a symmetric matrix of 6 numbers, into an out of 18: the 3 values, ascending, the 9
   numbers of their vectors, column by column, and the 6 of the worked matrix. What is refused leaves
   out. */
uint8_t zanikory_eigen_3x3(const double *a, size_t a_length, double *out, size_t out_length);

/* Singular values of a square matrix of 9 numbers, into an out of 30: the 3 values, descending, and the
   9 numbers each of U, of V and of the worked matrix. What is refused leaves out. */
uint8_t zanikory_svd_3x3(const double *a, size_t a_length, double *out, size_t out_length);

/* ---- a whole string in one call

   A row of up to 64 square matrices of 9 numbers, column by column, and as many answers. Answer i is that
   of matrix i alone: a matrix that is refused touches no other place. */

#define ZANIKORY_ROW_MOST 64

struct zanikory_svd_3x3_answer {
    uint8_t code;      /* of this matrix: 0, 5 or 7; with 5 and 7 all the rest is 0 */
    uint8_t rotations; /* at most 25 */
    uint8_t settled;   /* as byte 7 of a record in the old way */
    uint8_t zero[5];
    double values[3];             /* descending */
    double u[9], v[9], worked[9]; /* column by column; the last is the matrix after the last rotation */
};

/* What a matrix and an answer take, in bytes. The numbers lie as x86-64 has them, so that these are the
   sizes of double[9] and of the struct. */
#define ZANIKORY_ROW_MATRIX_SIZE 72
#define ZANIKORY_ROW_ANSWER_SIZE 248

/* Answers a row of matrices, and gives a code. The lengths are in bytes, and not in doubles as above: sizeof
   of the two arrays. The pointers need no alignment.
     0     every answer is filled: one that is refused, with 5 or 7, has its code and zeros
     10    the lengths are not those of equally many whole matrices and answers
     11    there are more than 64
   10 and 11 leave all answers as they were. An empty row gives 0.

   The caller keeps that neither pointer is null, that each is valid for its length, 0 included, and that
   the two do not overlap; nothing of that can be checked here. Nothing else is read or written, and no
   memory is kept from one call to the next: threads may call it at the same time.

       double matrices[2][9] = {{2, 0, 0, 0, 3, 0, 0, 0, 1}, {NAN}};
       struct zanikory_svd_3x3_answer answers[2];
       zanikory_svd_3x3_row((const uint8_t *)matrices, sizeof matrices, (uint8_t *)answers, sizeof answers);

   Here it gives 0, the values of the first answer are 3, 2 and 1, and the code of the second is 5. */
uint8_t zanikory_svd_3x3_row(const uint8_t *matrices, size_t matrices_length, uint8_t *answers,
                             size_t answers_length);

#ifdef __cplusplus
}
#endif

#endif
