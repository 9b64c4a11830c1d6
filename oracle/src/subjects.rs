//! All subjects, by name.

use crate::cholesky;
use crate::eigen;
use crate::float;
use crate::in_place;
use crate::marks;
use crate::matrix;
use crate::root;
use crate::scaled;
use crate::subject::Subject;
use crate::svd;

/// A further subject is a file and a line here.
const SUBJECTS: &[&[Subject]] = &[
    float::SUBJECTS,
    root::SUBJECTS,
    scaled::SUBJECTS,
    matrix::SUBJECTS,
    cholesky::SUBJECTS,
    eigen::SUBJECTS,
    in_place::SUBJECTS,
    svd::SUBJECTS,
    marks::SUBJECTS,
];

pub fn all() -> impl Iterator<Item = &'static Subject> {
    SUBJECTS.iter().copied().flatten()
}

pub fn named(name: &str) -> Option<&'static Subject> {
    all().find(|subject| subject.name == name)
}
