//! The proved kernels beside the crate's own, both from the numbers of a matrix to those of the answer; and
//! the call on a row of matrices beside as many calls on one.

use crate::inputs;
use crate::race::{race, Race};
use reference::algebra::dense3x3::eigen::eigen_jacobi;
use reference::algebra::{DenseMatrix3, DenseMatrixSym2, DenseMatrixSym3};
use std::hint::black_box;

/// So many matrices are worked on.
const MATRICES: usize = 4096;

/// So many of them are in a row.
const ROW: usize = 64;

/// An answer in a row has so many numbers, where its head takes the room of one and comes first.
const ROW_ANSWER: usize = 31;

/// What ours is held beside: the crate's kernel, and our own call on one matrix.
const CRATE: &str = "crate";
const SINGLE: &str = "single";

/// Takes the numbers of a matrix, an array and its length, and writes those of the answer.
type Spectrum = unsafe extern "C" fn(*const f64, usize, *mut f64, usize) -> u8;

/// Takes an old factor, which it replaces, and a matrix, and writes the number of a refused pivot.
type Factor = unsafe extern "C" fn(*mut f64, usize, *const f64, usize, *mut u8) -> u8;

/// Takes a factor, writes the solution, and takes the right side.
type Solve = unsafe extern "C" fn(*const f64, usize, *mut f64, usize, *const f64, usize) -> u8;

/// Takes the bytes of a row of matrices and their count, and writes those of the answers.
type Row = unsafe extern "C" fn(*const u8, usize, *mut u8, usize) -> u8;

extern "C" {
    fn zanikory_eigen_3x3(a: *const f64, m: usize, out: *mut f64, n: usize) -> u8;
    fn zanikory_svd_3x3(a: *const f64, m: usize, out: *mut f64, n: usize) -> u8;
    fn zanikory_cholesky_2x2_factor(
        l: *mut f64,
        l_length: usize,
        a: *const f64,
        a_length: usize,
        pivot: *mut u8,
    ) -> u8;
    fn zanikory_cholesky_3x3_factor(
        l: *mut f64,
        l_length: usize,
        a: *const f64,
        a_length: usize,
        pivot: *mut u8,
    ) -> u8;
    fn zanikory_cholesky_2x2_solve(
        l: *const f64,
        l_length: usize,
        x: *mut f64,
        x_length: usize,
        b: *const f64,
        b_length: usize,
    ) -> u8;
    fn zanikory_cholesky_3x3_solve(
        l: *const f64,
        l_length: usize,
        x: *mut f64,
        x_length: usize,
        b: *const f64,
        b_length: usize,
    ) -> u8;
    fn zanikory_svd_3x3_row(matrices: *const u8, m: usize, answers: *mut u8, n: usize) -> u8;
}

// The crate's kernels stand behind calls of the same shape, so that both sides pay for one.

/// The values, the vectors and the worked matrix.
#[inline(never)]
unsafe extern "C" fn crate_eigen_3x3(a: *const f64, _: usize, out: *mut f64, _: usize) -> u8 {
    // SAFETY: the caller lends arrays of 6 and 18, which do not overlap.
    let (a, out) = unsafe { (&*a.cast::<[f64; 6]>(), &mut *out.cast::<[f64; 18]>()) };
    let mut a = DenseMatrixSym3 { data: *a };
    let mut v = DenseMatrix3::zeros();
    let values = eigen_jacobi(&mut a, &mut Some(&mut v));
    out[..3].copy_from_slice(&values);
    out[3..12].copy_from_slice(&v.data);
    out[12..].copy_from_slice(&a.data);
    0
}

/// The values, U, V and the worked matrix.
#[inline(never)]
unsafe extern "C" fn crate_svd_3x3(a: *const f64, _: usize, out: *mut f64, _: usize) -> u8 {
    // SAFETY: the caller lends arrays of 9 and 30, which do not overlap.
    let (a, out) = unsafe { (&*a.cast::<[f64; 9]>(), &mut *out.cast::<[f64; 30]>()) };
    let mut a = DenseMatrix3 { data: *a };
    let mut u = DenseMatrix3::zeros();
    let mut v = DenseMatrix3::zeros();
    let values = a.svd(&mut u, &mut v);
    out[..3].copy_from_slice(&values);
    out[3..12].copy_from_slice(&u.data);
    out[12..21].copy_from_slice(&v.data);
    out[21..].copy_from_slice(&a.data);
    0
}

#[inline(never)]
unsafe extern "C" fn crate_factor_2x2(
    l: *mut f64,
    _: usize,
    a: *const f64,
    _: usize,
    pivot: *mut u8,
) -> u8 {
    // SAFETY: the caller lends arrays of 3 and a byte, and what is written overlaps nothing else.
    let (l, a, pivot) = unsafe { (&mut *l.cast::<[f64; 3]>(), &*a.cast(), &mut *pivot) };
    let mut factor = DenseMatrixSym2 { data: *l };
    let done = factor.cholesky_2x2_explicit_factor(&DenseMatrixSym2 { data: *a });
    *l = factor.data;
    *pivot = 0;
    u8::from(done.is_err())
}

#[inline(never)]
unsafe extern "C" fn crate_factor_3x3(
    l: *mut f64,
    _: usize,
    a: *const f64,
    _: usize,
    pivot: *mut u8,
) -> u8 {
    // SAFETY: the caller lends arrays of 6 and a byte, and what is written overlaps nothing else.
    let (l, a, pivot) = unsafe { (&mut *l.cast::<[f64; 6]>(), &*a.cast(), &mut *pivot) };
    let mut factor = DenseMatrixSym3 { data: *l };
    let done = factor.cholesky_3x3_explicit_factor(&DenseMatrixSym3 { data: *a });
    *l = factor.data;
    *pivot = 0;
    u8::from(done.is_err())
}

#[inline(never)]
unsafe extern "C" fn crate_solve_2x2(
    l: *const f64,
    _: usize,
    x: *mut f64,
    _: usize,
    b: *const f64,
    _: usize,
) -> u8 {
    // SAFETY: the caller lends arrays of 3, 2 and 2, and the one that is written overlaps no other.
    let (l, x, b) = unsafe {
        (
            &*l.cast(),
            &mut *x.cast::<[f64; 2]>(),
            &*b.cast::<[f64; 2]>(),
        )
    };
    DenseMatrixSym2 { data: *l }.cholesky_2x2_explicit_solve(x, b);
    0
}

#[inline(never)]
unsafe extern "C" fn crate_solve_3x3(
    l: *const f64,
    _: usize,
    x: *mut f64,
    _: usize,
    b: *const f64,
    _: usize,
) -> u8 {
    // SAFETY: the caller lends arrays of 6, 3 and 3, and the one that is written overlaps no other.
    let (l, x, b) = unsafe {
        (
            &*l.cast(),
            &mut *x.cast::<[f64; 3]>(),
            &*b.cast::<[f64; 3]>(),
        )
    };
    DenseMatrixSym3 { data: *l }.cholesky_3x3_explicit_solve(x, b);
    0
}

/// A row by as many calls on one matrix. They stand behind a call of the shape of the row's.
unsafe fn one_by_one(kernel: Spectrum, matrices: *const u8, answers: *mut u8) -> u8 {
    let kernel = black_box(kernel);
    // SAFETY: the caller lends the numbers of a row and of its answers, which do not overlap.
    let (matrices, answers) = unsafe {
        (
            &*matrices.cast::<[[f64; 9]; ROW]>(),
            &mut *answers.cast::<[[f64; ROW_ANSWER]; ROW]>(),
        )
    };
    for (a, [head, numbers @ ..]) in matrices.iter().zip(answers) {
        // SAFETY: both kernels take any numbers in an array of 9, and write 30.
        let code = unsafe { kernel(a.as_ptr(), a.len(), numbers.as_mut_ptr(), numbers.len()) };
        *head = f64::from_bits(u64::from(code));
    }
    0
}

#[inline(never)]
unsafe extern "C" fn crate_svd_row(given: *const u8, _: usize, out: *mut u8, _: usize) -> u8 {
    // SAFETY: the caller lends the numbers of a row and of its answers, which do not overlap.
    unsafe { one_by_one(crate_svd_3x3, given, out) }
}

#[inline(never)]
unsafe extern "C" fn single_svd_row(given: *const u8, _: usize, out: *mut u8, _: usize) -> u8 {
    // SAFETY: the caller lends the numbers of a row and of its answers, which do not overlap.
    unsafe { one_by_one(zanikory_svd_3x3, given, out) }
}

// Each shape of call as one from N numbers to M. Both sides of a race come from the same function here,
// so they run through one loop, and the compiler cannot see which kernel it calls.

fn of_spectrum<const N: usize, const M: usize>(
    kernel: Spectrum,
) -> impl Fn(&[f64; N], &mut [f64; M]) -> u8 {
    let kernel = black_box(kernel);
    // SAFETY: both kernels take any numbers in an array of N, and write M.
    move |a, out| unsafe { kernel(a.as_ptr(), N, out.as_mut_ptr(), M) }
}

/// The old factor is zeros, as `answers` makes what is written.
fn of_factor<const N: usize>(kernel: Factor) -> impl Fn(&[f64; N], &mut [f64; N]) -> u8 {
    let kernel = black_box(kernel);
    move |a, out| {
        let mut pivot = 0;
        // SAFETY: both kernels take any numbers in two arrays of N, and write N and a byte.
        unsafe { kernel(out.as_mut_ptr(), N, a.as_ptr(), N, &mut pivot) }
    }
}

/// The factor comes first of the N numbers, and then the right side.
fn of_solve<const N: usize, const M: usize>(
    kernel: Solve,
) -> impl Fn(&[f64; N], &mut [f64; M]) -> u8 {
    let kernel = black_box(kernel);
    move |given, x| {
        let (l, b) = given.split_at(N - M);
        // SAFETY: both kernels take any numbers in arrays of N - M and M, and write M.
        unsafe { kernel(l.as_ptr(), N - M, x.as_mut_ptr(), M, b.as_ptr(), M) }
    }
}

/// Only the code of a head stays, since a call on one matrix tells neither rotations nor mark.
fn of_row<const N: usize, const M: usize>(kernel: Row) -> impl Fn(&[f64; N], &mut [f64; M]) -> u8 {
    let kernel = black_box(kernel);
    move |given, out| {
        let (matrices, answers) = (given.as_ptr().cast(), out.as_mut_ptr().cast());
        // SAFETY: all kernels take any numbers in an array of N, and write M.
        let code = unsafe { kernel(matrices, size_of_val(given), answers, size_of_val(out)) };
        for head in out.iter_mut().step_by(ROW_ANSWER) {
            *head = f64::from_bits(head.to_bits() & 0xFF);
        }
        code
    }
}

/// Folds the bits of all answers into one word, so that each number is needed.
#[inline(never)]
fn answers<const N: usize, const M: usize>(
    call: &impl Fn(&[f64; N], &mut [f64; M]) -> u8,
    given: &[[f64; N]],
) -> u64 {
    let mut fold = 0u64;
    for numbers in given {
        let mut out = [0.0; M];
        let code = call(numbers, &mut out);
        for x in black_box(out) {
            fold = fold.rotate_left(1) ^ x.to_bits();
        }
        fold ^= u64::from(code);
    }
    fold
}

fn race_of_calls<const N: usize, const M: usize, C: Fn(&[f64; N], &mut [f64; M]) -> u8>(
    what: &str,
    beside: &'static str,
    given: &[[f64; N]],
    ours: C,
    theirs: C,
) -> Result<Race, String> {
    let ours = || answers(&ours, given);
    let theirs = || answers(&theirs, given);
    race(what, beside, given.len(), ours, theirs)
}

fn factors() -> Result<[Race; 2], String> {
    let sides: [Factor; 2] = [zanikory_cholesky_2x2_factor, crate_factor_2x2];
    let [ours, theirs] = sides.map(of_factor::<3>);
    let matrices = inputs::with_diagonal(MATRICES, &[0, 2]);
    let two = race_of_calls("Cholesky 2x2", CRATE, &matrices, ours, theirs)?;
    let sides: [Factor; 2] = [zanikory_cholesky_3x3_factor, crate_factor_3x3];
    let [ours, theirs] = sides.map(of_factor::<6>);
    let matrices = inputs::with_diagonal(MATRICES, &[0, 2, 5]);
    let three = race_of_calls("Cholesky 3x3", CRATE, &matrices, ours, theirs)?;
    Ok([two, three])
}

fn solutions() -> Result<[Race; 2], String> {
    let sides: [Solve; 2] = [zanikory_cholesky_2x2_solve, crate_solve_2x2];
    let [ours, theirs] = sides.map(of_solve::<5, 2>);
    let given = inputs::with_diagonal(MATRICES, &[0, 2]);
    let two = race_of_calls("solve 2x2", CRATE, &given, ours, theirs)?;
    let sides: [Solve; 2] = [zanikory_cholesky_3x3_solve, crate_solve_3x3];
    let [ours, theirs] = sides.map(of_solve::<9, 3>);
    let given = inputs::with_diagonal(MATRICES, &[0, 2, 5]);
    let three = race_of_calls("solve 3x3", CRATE, &given, ours, theirs)?;
    Ok([two, three])
}

fn spectra() -> Result<[Race; 2], String> {
    let sides: [Spectrum; 2] = [zanikory_eigen_3x3, crate_eigen_3x3];
    let [ours, theirs] = sides.map(of_spectrum::<6, 18>);
    let matrices = inputs::ordinary(MATRICES);
    let eigen = race_of_calls("eigen 3x3", CRATE, &matrices, ours, theirs)?;
    let sides: [Spectrum; 2] = [zanikory_svd_3x3, crate_svd_3x3];
    let [ours, theirs] = sides.map(of_spectrum::<9, 30>);
    let matrices = inputs::ordinary(MATRICES);
    let svd = race_of_calls("SVD 3x3", CRATE, &matrices, ours, theirs)?;
    Ok([eigen, svd])
}

/// The matrices of the line SVD 3x3, in rows. A call is one on a row.
fn rows() -> Result<[Race; 2], String> {
    let what = format!("SVD 3x3, a row of {ROW}");
    let sides: [Row; 3] = [zanikory_svd_3x3_row, crate_svd_row, single_svd_row];
    let [ours, theirs, single] = sides.map(of_row::<{ ROW * 9 }, { ROW * ROW_ANSWER }>);
    let given = inputs::ordinary(MATRICES / ROW);
    let beside_crate = race_of_calls(&what, CRATE, &given, &ours, &theirs)?;
    let beside_single = race_of_calls(&what, SINGLE, &given, &ours, &single)?;
    Ok([beside_crate, beside_single])
}

pub fn all(tell: &mut dyn FnMut(Race)) -> Result<(), String> {
    factors()?.into_iter().for_each(&mut *tell);
    solutions()?.into_iter().for_each(&mut *tell);
    spectra()?.into_iter().for_each(&mut *tell);
    rows()?.into_iter().for_each(tell);
    Ok(())
}
