//! The place of the crate's modules, and what they take from the rest of the crate.
//!
//! Written anew: nothing here is the crate's text. The build puts the modules below this file.
#![allow(dead_code, non_snake_case, unused_imports)]

mod floats;
mod matrices;

pub use dense::fixed::*;
pub use floats::*;
pub use matrices::*;

pub mod dense {
    pub mod fixed {
        pub use self::dense2x2::*;
        pub use self::dense3x3::*;
        pub use self::types::*;

        pub mod types {
            mod square;
            mod symmetric;

            pub use self::square::*;
            pub use self::symmetric::*;
        }

        pub mod dense2x2 {
            pub mod cholesky;
            pub mod eigen;
            pub mod svd;

            pub type DenseMatrix2<T> = super::DenseMatrixN<4, T>;
            pub type DenseMatrixSym2<T> = super::DenseMatrixSymN<3, T>;
        }

        pub mod dense3x3 {
            pub mod cholesky;
            // private, so that `core::` still means Rust's own
            mod core;
            pub mod eigen;
            pub mod svd;

            pub use self::core::*;
        }
    }
}
