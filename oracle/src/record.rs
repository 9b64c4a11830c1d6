//! Requests and answers in bytes, by the scope's section "Bytes", and the codes in their order.

use crate::codes::{DONE, INPUT_LENGTH, INPUT_NOT_FINITE, KIND, NOT_ZERO};
use crate::kinds::{refused, Answer, Kind, DEFAULT};
use crate::numbers::{all_finite, number};

pub const REQUEST_BYTES: usize = 104;
pub const ANSWER_BYTES: usize = 176;

/// Both begin with the event's number, and the kind in this byte.
pub const KIND_AT: usize = 4;

/// An answer then has the code, the rotations or the pivot's number, and the mark.
pub const CODE_AT: usize = 5;
pub const COUNT_AT: usize = 6;
pub const SETTLED_AT: usize = 7;

/// The numbers of both start here.
pub const NUMBERS_AT: usize = 8;

/// A request then has its way, and reserved bytes.
pub const WAY_AT: usize = 5;
const RESERVED_AT: usize = 6;

/// A request's parts. Its numbers are patterns, since an unused one must have no bit set.
#[derive(Clone, Copy, Default)]
pub struct Request {
    pub event: u32,
    pub kind: u8,
    pub way: u8,
    pub reserved: [u8; 2],
    pub nine: [u64; 9],
    pub three: [u64; 3],
}

impl Request {
    pub fn of(bytes: &[u8; REQUEST_BYTES]) -> Self {
        let word = |i: usize| {
            let at = NUMBERS_AT + 8 * i;
            u64::from_le_bytes(bytes[at..at + 8].try_into().expect("eight bytes"))
        };
        Self {
            event: u32::from_le_bytes(bytes[..KIND_AT].try_into().expect("four bytes")),
            kind: bytes[KIND_AT],
            way: bytes[WAY_AT],
            reserved: [bytes[RESERVED_AT], bytes[RESERVED_AT + 1]],
            nine: std::array::from_fn(word),
            three: std::array::from_fn(|i| word(9 + i)),
        }
    }

    pub fn bytes(&self) -> [u8; REQUEST_BYTES] {
        let mut bytes = [0; REQUEST_BYTES];
        bytes[..KIND_AT].copy_from_slice(&self.event.to_le_bytes());
        bytes[KIND_AT] = self.kind;
        bytes[WAY_AT] = self.way;
        bytes[RESERVED_AT..NUMBERS_AT].copy_from_slice(&self.reserved);
        let places = bytes[NUMBERS_AT..].chunks_exact_mut(8);
        for (place, word) in places.zip(self.nine.iter().chain(&self.three)) {
            place.copy_from_slice(&word.to_le_bytes());
        }
        bytes
    }

    /// The codes in their order: 3, 4 and 5, and then the kernel's.
    fn judged(&self) -> Answer {
        let Some(kind) = Kind::of(self.kind) else {
            return Err(refused(KIND));
        };
        let mut unused = self.nine[kind.nine..]
            .iter()
            .chain(&self.three[kind.three..]);
        let set = self.reserved != [0; 2] || unused.any(|word| *word != 0);
        if set || !kind.has_way(self.way) {
            return Err(refused(NOT_ZERO));
        }
        // the unused ones are zeros by now
        let (nine, three) = (self.nine.map(number), self.three.map(number));
        if !all_finite(&nine) || !all_finite(&three) {
            return Err(refused(INPUT_NOT_FINITE));
        }
        match self.way {
            DEFAULT => kind.default_answer(&nine, &three),
            _ => kind.answer(&nine, &three),
        }
    }
}

pub fn answer(request: &[u8; REQUEST_BYTES]) -> [u8; ANSWER_BYTES] {
    let mut bytes = [0; ANSWER_BYTES];
    bytes[..=KIND_AT].copy_from_slice(&request[..=KIND_AT]);
    match Request::of(request).judged() {
        Err(refused) => {
            bytes[CODE_AT] = refused.code;
            bytes[COUNT_AT] = refused.pivot;
        }
        Ok(worked) => {
            bytes[CODE_AT] = DONE as u8;
            bytes[COUNT_AT] = worked.count;
            bytes[SETTLED_AT] = u8::from(worked.settled);
            let numbers = worked
                .values
                .iter()
                .chain(&worked.left)
                .chain(&worked.right);
            let places = bytes[NUMBERS_AT..].chunks_exact_mut(8);
            for (place, x) in places.zip(numbers) {
                place.copy_from_slice(&x.to_bits().to_le_bytes());
            }
        }
    }
    bytes
}

/// The answer to a part of a request.
pub fn answer_to_part() -> [u8; ANSWER_BYTES] {
    let mut bytes = [0; ANSWER_BYTES];
    bytes[CODE_AT] = INPUT_LENGTH as u8;
    bytes
}
