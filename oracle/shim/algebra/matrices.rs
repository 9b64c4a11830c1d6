//! The matrix traits and the types of any size, as far as the modules name them.

use super::FloatT;
use std::marker::PhantomData;
use std::ops::{Index, IndexMut};

/// n(n+1)/2: the places of a packed triangle.
pub const fn triangular_number(n: usize) -> usize {
    n * (n + 1) / 2
}

#[derive(Clone, Copy, Debug, PartialEq)]
pub enum MatrixShape {
    N,
    T,
}

#[derive(Clone, Copy, Debug, PartialEq)]
pub enum MatrixTriangle {
    Triu,
    Tril,
}

#[derive(Clone, Copy, Debug, PartialEq)]
pub enum DenseFactorizationError {
    /// The number of the pivot that is at most zero.
    Cholesky(i32),
}

pub trait ShapedMatrix {
    fn shape(&self) -> MatrixShape;
    fn size(&self) -> (usize, usize);
}

pub trait DenseMatrix<T>: ShapedMatrix + Index<(usize, usize), Output = T> {
    fn index_linear(&self, place: (usize, usize)) -> usize;
    fn data(&self) -> &[T];
}

pub trait DenseMatrixMut<T>: DenseMatrix<T> + IndexMut<(usize, usize)> {
    fn data_mut(&mut self) -> &mut [T];
}

/// A matrix of any size, by columns.
#[derive(Clone, Debug)]
pub struct DenseStorageMatrix<S, T> {
    size: (usize, usize),
    data: S,
    number: PhantomData<T>,
}

pub type Matrix<T> = DenseStorageMatrix<Vec<T>, T>;

impl<T: FloatT> Matrix<T> {
    pub fn new(size: (usize, usize), data: Vec<T>) -> Self {
        assert_eq!(data.len(), size.0 * size.1);
        Self {
            size,
            data,
            number: PhantomData,
        }
    }

    pub fn zeros(size: (usize, usize)) -> Self {
        Self::new(size, vec![T::zero(); size.0 * size.1])
    }
}

impl<S: AsRef<[T]>, T> ShapedMatrix for DenseStorageMatrix<S, T> {
    fn shape(&self) -> MatrixShape {
        MatrixShape::N
    }
    fn size(&self) -> (usize, usize) {
        self.size
    }
}

impl<S: AsRef<[T]>, T> Index<(usize, usize)> for DenseStorageMatrix<S, T> {
    type Output = T;
    fn index(&self, place: (usize, usize)) -> &T {
        &self.data.as_ref()[self.index_linear(place)]
    }
}

impl<S: AsRef<[T]> + AsMut<[T]>, T> IndexMut<(usize, usize)> for DenseStorageMatrix<S, T> {
    fn index_mut(&mut self, place: (usize, usize)) -> &mut T {
        let at = self.index_linear(place);
        &mut self.data.as_mut()[at]
    }
}

impl<S: AsRef<[T]>, T> DenseMatrix<T> for DenseStorageMatrix<S, T> {
    fn index_linear(&self, place: (usize, usize)) -> usize {
        place.0 + place.1 * self.size.0
    }
    fn data(&self) -> &[T] {
        self.data.as_ref()
    }
}

/// A matrix of which one triangle counts.
pub struct Symmetric<'a, M> {
    pub src: &'a M,
    pub uplo: MatrixTriangle,
}
