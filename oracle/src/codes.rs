//! The port's numbers that answer.

pub const DONE: u64 = 0;
pub const INPUT_LENGTH: u64 = 1;
pub const OUTPUT_LENGTH: u64 = 2;
pub const KIND: u64 = 3;
pub const NOT_ZERO: u64 = 4;
pub const INPUT_NOT_FINITE: u64 = 5;
pub const PIVOT: u64 = 6;
pub const ANSWER_NOT_FINITE: u64 = 7;
pub const OUTSIDE: u64 = 8;
pub const NAN_PIVOT: u64 = 9;
pub const ROWS_UNEQUAL: u64 = 10;
pub const ROW_TOO_LONG: u64 = 11;
pub const COUNT_TOO_LARGE: u64 = 14;

/// The codes that a record can have. 2, 8, 10, 11 and 14 are of calls alone: a program's answer has room, no kind names a row or a
/// column, and no record has several matrices or counts others.
pub const OF_RECORDS: [u64; 8] = [
    DONE,
    INPUT_LENGTH,
    KIND,
    NOT_ZERO,
    INPUT_NOT_FINITE,
    PIVOT,
    ANSWER_NOT_FINITE,
    NAN_PIVOT,
];
