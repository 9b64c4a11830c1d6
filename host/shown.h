/* The C entries of target/staticlib/libshown.a, which `tools/build shown` writes. They are no part of the
   product: they are there for host/nan_bits.c and host/nan_moves.c, which look at the bits of NaNs, and for
   host/roots.c. The promise of each says NaN and not which. What zanikory.h says of the floating-point state
   holds here too. */
#ifndef ZANIKORY_SHOWN_H
#define ZANIKORY_SHOWN_H

#include <stddef.h>
#include <stdint.h>

#ifdef __cplusplus
extern "C" {
#endif

/* ---- floats */

/* The root of x: the double nearest to the exact one, ties to even. A zero keeps its sign and
   +infinity stays. A number below zero, -infinity or a NaN gives NaN, whose bits are
   7FF8000000000000. */
double zanikory_root(double x);

/* 1 or -1 by the sign of x, at zeros and infinities too. A NaN gives NaN, whose bits are
   7FF8000000000000. */
double zanikory_signum(double x);

/* The root, from the bits of a double to the bits of its root. Here the promise fixes every bit: for a
   number below zero, -infinity or any NaN they are 7FF8000000000000. */
uint64_t zanikory_root_bits(uint64_t b);

/* The signum, from bits to bits. Here the promise fixes every bit: those of 1 (3FF0000000000000) or of
   -1 (BFF0000000000000), and 7FF8000000000000 for any NaN. */
uint64_t zanikory_signum_bits(uint64_t b);

/* ---- matrices in arrays of fixed length

   A square matrix has 4 or 9 numbers, column by column. A symmetric one has 3 or 6, its upper triangle,
   column by column. Rows and columns count from 0. No pointer is null, each is valid for the numbers of
   its matrix, and what is written overlaps nothing else. The answer is 0, or 8 where a row or a column is
   not below the size. Numbers that are moved, or that stay, keep every bit, those of a NaN too. */

/* The matrix is moved where it stands, and with 8 it stays. To flip a column is to change the sign bit of
   each of its numbers; index_mut writes x at a row and a column. */
uint8_t zanikory_mat2_transpose(double *a);
uint8_t zanikory_mat3_transpose(double *a);
uint8_t zanikory_mat2_set_identity(double *a);
uint8_t zanikory_mat3_set_identity(double *a);
uint8_t zanikory_mat2_swap_columns(size_t i, size_t j, double *a);
uint8_t zanikory_mat3_swap_columns(size_t i, size_t j, double *a);
uint8_t zanikory_mat2_flip_column(size_t i, double *a);
uint8_t zanikory_mat3_flip_column(size_t i, double *a);
uint8_t zanikory_mat2_index_mut(size_t row, size_t column, double x, double *a);
uint8_t zanikory_mat3_index_mut(size_t row, size_t column, double x, double *a);
uint8_t zanikory_sym2_index_mut(size_t row, size_t column, double x, double *a);
uint8_t zanikory_sym3_index_mut(size_t row, size_t column, double x, double *a);

/* The number at a row and a column, written at place, which takes +0 with 8. */
uint8_t zanikory_mat2_index(size_t row, size_t column, const double *a, double *place);
uint8_t zanikory_mat3_index(size_t row, size_t column, const double *a, double *place);
uint8_t zanikory_sym2_index(size_t row, size_t column, const double *a, double *place);
uint8_t zanikory_sym3_index(size_t row, size_t column, const double *a, double *place);

#ifdef __cplusplus
}
#endif

#endif
