//! Names each function of the crate's modules at f64, so that a build shows that all can be called.
#![allow(dead_code)]

use crate::algebra::dense::fixed::dense2x2;
use crate::algebra::dense::fixed::dense3x3::{eigen, svd};
use crate::algebra::{DenseMatrix2, DenseMatrix3, DenseMatrixSym2, DenseMatrixSym3};

fn eigen_functions() {
    let _ = DenseMatrixSym3::<f64>::eigvals;
    let _ = DenseMatrixSym3::<f64>::eigen;
    let _ = eigen::eigen_hybrid::<f64>;
    let _ = eigen::eigvals_analytic::<f64>;
    let _ = eigen::eigvecs_analytic::<f64>;
    let _ = eigen::eigen_jacobi::<f64>;
    let _ = eigen::find_largest_off_diag::<f64>;
    let _ = eigen::get_rotation_elements::<f64>;
    let _ = eigen::compute_jacobi_rotation::<f64>;
    let _ = eigen::apply_rotation::<f64>;
    let _ = eigen::update_eigenvectors::<f64>;
    let _ = eigen::sort3::<f64>;
    let _ = eigen::sort3_with_columns::<f64>;
    let _ = eigen::sort3_idx::<f64>;
    let _ = eigen::scale3::<f64>;
    let _ = eigen::cross3::<f64>;
    let _ = eigen::dot3::<f64>;
    let _ = eigen::norm3::<f64>;
    let _ = DenseMatrixSym2::<f64>::eigvals;
    let _ = DenseMatrixSym2::<f64>::eigen;
    let _ = dense2x2::eigen::eig2::<f64>;
}

fn svd_functions() {
    let _ = DenseMatrix3::<f64>::svd;
    let _ = svd::find_largest_off_diag_nonsym::<f64>;
    let _ = svd::compute_two_sided_rotation::<f64>;
    let _ = svd::apply_two_sided_rotation::<f64>;
    let _ = svd::hypot_fast::<f64>;
    let _ = svd::compute_polar_2x2::<f64>;
    let _ = svd::fix_order_and_signs_3x3::<f64>;
    let _ = DenseMatrix2::<f64>::svd;
    let _ = dense2x2::svd::set_order_and_signs_2x2::<f64>;
}

fn cholesky_functions() {
    let _ = DenseMatrixSym3::<f64>::cholesky_3x3_explicit_factor;
    let _ = DenseMatrixSym3::<f64>::cholesky_3x3_explicit_solve;
    let _ = DenseMatrixSym2::<f64>::cholesky_2x2_explicit_factor;
    let _ = DenseMatrixSym2::<f64>::cholesky_2x2_explicit_solve;
}

fn matrix_functions() {
    let _ = DenseMatrix3::<f64>::get_dimension;
    let _ = DenseMatrix3::<f64>::dim;
    let _ = DenseMatrix3::<f64>::zeros;
    let _ = DenseMatrix3::<f64>::set_identity;
    let _ = DenseMatrix3::<f64>::col_slice;
    let _ = DenseMatrix3::<f64>::swap_columns;
    let _ = DenseMatrix3::<f64>::flip_column;
    let _ = DenseMatrix3::<f64>::transpose_in_place;
    let _ = DenseMatrix3::<f64>::mul;
    let _ = DenseMatrixSym3::<f64>::get_dimension;
    let _ = DenseMatrixSym3::<f64>::dim;
    let _ = DenseMatrixSym3::<f64>::zeros;
    let _ = DenseMatrixSym3::<f64>::scaled_from;
    let _ = DenseMatrixSym3::<f64>::copy_from;
    let _ = DenseMatrixSym3::<f64>::mul;
    let _ = DenseMatrixSym3::<f64>::norm_fro;
    let _ = DenseMatrixSym3::<f64>::quad_form;
}
