//! The requests that come first in every file: the scope's examples, and one by one what chance may leave out.

use crate::cholesky::NAN_PIVOTS;
use crate::codes::DONE;
use crate::eigen::isotropic;
use crate::float::{HIDDEN, INFINITY, NAN, SIGN};
use crate::kinds::{Kind, AS_GIVEN};
use crate::marks;
use crate::numbers::{number, power_of_two};
use crate::places::{byte_that_is_0, of_its_subject, unused_place, used_place, with_words};
use crate::powers::largest;
use crate::random::Random;
use crate::reached::reaching;
use crate::record::{answer, Request, CODE_AT, COUNT_AT};
use crate::rotations::{LIMIT, MOST};
use crate::scalings;
use crate::ways::{has_both, in_way};

/// Each branch of a kind's definition is reached at least so many times.
const TIMES: u64 = 8;

/// What comes first in a file: the requests below as they are given, then those that can be scaled, what scaling may meet, and every way
/// of every kind.
pub fn listed() -> Vec<Request> {
    let once = once();
    let mut all: Vec<Request> = once.iter().map(|one| in_way(one, AS_GIVEN)).collect();
    all.extend(once.iter().filter(|one| has_both(one)));
    all.extend(scalings());
    all.extend((1..=8).flat_map(every_way));
    all
}

/// What scaling may meet, for each kind that is scaled.
pub fn scalings() -> Vec<Request> {
    let mut all = both_ways();
    all.extend((1..=4).flat_map(|kind| scalings::reaching(kind, TIMES)));
    all.extend(small_beside_1());
    all.extend([2, 4].into_iter().flat_map(each_length));
    all.extend(longest());
    numbered(all)
}

/// Few matrices for each number of rotations that scaled ones at random make.
fn each_length(kind: u8) -> Vec<Request> {
    const EACH: u64 = 4;
    const INPUTS: u64 = 1 << 15;
    let mut random = Random::new(u64::from(kind));
    let mut met = [0; MOST as usize + 1];
    let mut all = Vec::new();
    for _ in 0..INPUTS {
        let request = of_its_subject(&mut random, kind, u64::MAX);
        let answer = answer(&request.bytes());
        let met = &mut met[usize::from(answer[COUNT_AT])];
        if u64::from(answer[CODE_AT]) == DONE && *met < EACH {
            *met += 1;
            all.push(request);
        }
    }
    all
}

/// What scaling cures, and what else it changes: the cases of docs/DIFFERENCES.md, each in both ways.
fn both_ways() -> Vec<Request> {
    let [tiny, unit, top] = [-46, -1074, 1022].map(power_of_two);
    let (small, huge) = (power_of_two(-60), power_of_two(1023));
    let all = [
        with_numbers(2, &[2.0, 1.0, 2.0, 0.0, 0.0, 5.0].map(|x| x * tiny)),
        with_numbers(1, &[0.0, small, power_of_two(-53)]),
        with_numbers(1, &[-huge, top, huge]),
        with_numbers(1, &[huge, huge, 0.0]),
        with_numbers(3, &[1.5, 1.5, -1.5, 1.5].map(|x| x * top)),
        with_numbers(2, &[1.0, 1.0, -1.0, 1.0, 1.0, 1.0].map(|x| x * top)),
        with_numbers(2, &isotropic(30, 1, 24)),
        with_numbers(1, &[-f64::MAX, power_of_two(1000), f64::MAX]),
        with_numbers(1, &[0.0, power_of_two(60), 1.0]),
        with_numbers(
            2,
            &[1.0, power_of_two(-30), 1.0, 0.0, 0.0, power_of_two(20)],
        ),
        with_numbers(1, &[huge, 0.0, small]),
        with_numbers(2, &[1.0, 2.0, 4.0, 3.0, 6.0, 9.0].map(|x| x * unit)),
    ];
    let ways = |one: &Request| [in_way(one, AS_GIVEN), *one];
    all.iter().flat_map(ways).collect()
}

/// What a search found: the most rotations of matrices from 1 up to 2, which are 10 of a symmetric one, and 12 and 13 of others.
fn longest() -> impl Iterator<Item = Request> {
    const EIGEN: [u64; 6] = [
        0x3FFA_C2DF_067A_C4EA,
        0,
        8,
        0x3FFF_FFFF_FFFF_FFA0,
        0xBFFF_FFFF_FFFF_FFA0,
        0x3FFA_C2DF_067A_C4EA,
    ];
    const SVD: [[u64; 9]; 2] = [
        [
            0x8000_0000_0000_0002,
            0x3FF0_6060_5FD1_C1BA,
            0xBFFE_77C5_CD80_6D6F,
            0xBFF0_6060_5FD1_C1BB,
            0x8000_0000_0000_0000,
            0x3FA1_A865_87B7_BCD1,
            0x3FC2_3C5D_9569_1C0D,
            0x3FFF_FFFF_FFFF_FFF8,
            3,
        ],
        [
            0xBFFF_FFFF_FFFF_FEEA,
            0x3FD0_B991_0F69_83D1,
            0x3FE0_741C_CF77_CD05,
            0x3F51_14FD_A185_0DA0,
            0x3FFC_5F31_117A_5A92,
            0xBFEF_61A7_8A36_1404,
            0xBFE1_2373_CD97_D48B,
            0xBFEE_589C_4D18_4E5F,
            0xBFFC_7F02_C77B_632F,
        ],
    ];
    let svd = SVD.iter().map(|words| with_words(4, words));
    [with_words(2, &EIGEN)].into_iter().chain(svd)
}

/// What the mark of a 3x3 SVD turns on, in a pair that stays small when the matrix is scaled: the third number of the diagonal is 1.
fn small_beside_1() -> impl Iterator<Item = Request> {
    let small = blind_rotations(4).into_iter();
    let with_1 = small.filter(|one| one.nine[8] == 0).map(|mut one| {
        one.nine[8] = 1.0f64.to_bits();
        one
    });
    with_1.filter(|one| largest(&one.nine.map(number)) == 1.0)
}

/// Event numbers that use all four bytes.
fn numbered(mut all: Vec<Request>) -> Vec<Request> {
    for (number, request) in all.iter_mut().enumerate().skip(1) {
        request.event = (number as u32).wrapping_mul(0x9E37_79B1);
    }
    all
}

/// Every byte in place of the way.
fn every_way(kind: u8) -> impl Iterator<Item = Request> {
    (0..=255).map(move |way| Request { way, ..good(kind) })
}

/// The requests that are listed, each of them once.
pub fn once() -> Vec<Request> {
    let mut all = of_the_scope();
    all.extend(of_the_subjects());
    all.extend(of_each_branch());
    all.extend(nearly_isotropic());
    all.extend(zero_sides());
    all.extend(bad_kinds());
    for kind in 1..=8 {
        all.extend(not_zero(kind));
        all.extend(not_finite(kind));
    }
    all.extend(nan_pivots());
    all.extend((1..=4).flat_map(blind_rotations));
    numbered(all)
}

fn with_numbers(kind: u8, numbers: &[f64]) -> Request {
    let words: Vec<u64> = numbers.iter().map(|x| x.to_bits()).collect();
    with_words(kind, &words)
}

/// The whole example, the rows P4 to P14 of its table, and what the crate's arithmetic does that a reader may not expect.
fn of_the_scope() -> Vec<Request> {
    let below = f64::from_bits(LIMIT.to_bits() - 1);
    let power = power_of_two;
    let huge = f64::from_bits(0x7FD8_0000_0000_0000);
    let mut all = vec![
        with_numbers(1, &[2.0, 1.0, 2.0]),
        with_numbers(1, &[1.0, 0.0, 1.0]),
        with_numbers(1, &[f64::MAX; 3]),
        with_numbers(2, &[3.0, 0.0, 1.0, 0.0, 0.0, 2.0]),
        with_numbers(2, &[1.0, LIMIT, 1.0, 0.0, 0.0, 1.0]),
        with_numbers(2, &[1.0, below, 1.0, 0.0, 0.0, 1.0]),
        with_numbers(2, &[-2.0, -1.0, -2.0, 0.0, 0.0, -5.0]),
        with_numbers(3, &[1.0, 0.0, 0.0, -2.0]),
        with_numbers(4, &[1.0, 0.0, 0.0, 0.0, -2.0, 0.0, 0.0, 0.0, 3.0]),
        with_numbers(7, &[4.0, 2.0, 5.0, 8.0, 10.0]),
        with_numbers(5, &[1.0, 1.0, 1.0]),
        with_numbers(6, &[1.0, 0.0, 1.0, 1.0, 0.0, 1.0]),
        with_numbers(3, &[huge, huge, -huge, huge]),
        with_numbers(1, &[-power(1023), power(1022), power(1023)]),
        with_numbers(2, &isotropic(30, 1, 24)),
        with_numbers(6, &[power(-1074), 0.0, 1.0, power(1023), 0.0, 1.0]),
    ];
    all[0].event = 7;
    all
}

/// The first inputs of each kind's subject, among which are those that it lists.
fn of_the_subjects() -> Vec<Request> {
    let mut random = Random::new(0);
    let mut all = Vec::new();
    for kind in 1..=8 {
        for number in 0..24 {
            all.push(of_its_subject(&mut random, kind, number));
        }
    }
    all
}

/// Inputs for each branch. Those of a factor alone come once more with a right side, so that each sort of pivot is met there too.
fn of_each_branch() -> Vec<Request> {
    let mut all: Vec<Request> = (1..=8).flat_map(|kind| reaching(kind, TIMES)).collect();
    let factors: Vec<Request> = all
        .iter()
        .copied()
        .filter(|r| matches!(r.kind, 5 | 6))
        .collect();
    for mut request in factors {
        request.kind += 2;
        let of = Kind::of(request.kind).expect("a known kind");
        for (place, word) in request.three[..of.three].iter_mut().enumerate() {
            *word = (1.0 + place as f64).to_bits();
        }
        all.push(request);
    }
    all
}

/// A small number beside a level diagonal makes some rotations with 2^10 on it and, from 2^14 up, more than 10: each number of them
/// up to 25 comes up here, settled at the end and not.
fn nearly_isotropic() -> Vec<Request> {
    // with 2^k on the diagonal, m * 2^(k - sum) beside it
    const BESIDE: [(u64, u32); 11] = [
        (1, 54),
        (3, 55),
        (3, 56),
        (5, 56),
        (7, 56),
        (7, 57),
        (9, 57),
        (11, 57),
        (13, 57),
        (13, 58),
        (15, 58),
    ];
    let high = (14..=23).flat_map(|k| BESIDE.map(|(m, sum)| isotropic(k, m, sum - k)));
    let low = (36..=45).flat_map(|j| [1, 3, 5].map(|m| isotropic(10, m, j)));
    let both = |a: [f64; 6]| {
        let [d, b, ..] = a;
        let square = [d, b, b, b, d, 0.0, b, 0.0, d];
        [with_numbers(2, &a), with_numbers(4, &square)]
    };
    low.chain(high).flat_map(both).collect()
}

/// Zeros of all signs on the right side: the sign of a zero in the solution depends on each step to it.
fn zero_sides() -> Vec<Request> {
    let mut all = Vec::new();
    for kind in [7, 8] {
        for beside in [0.0, -0.0, 0.5] {
            for signs in 0..8 {
                let mut request = good(kind);
                request.nine[1] = f64::to_bits(beside);
                let used = &mut request.three[..usize::from(kind) - 5];
                for (place, word) in used.iter_mut().enumerate() {
                    *word = (signs >> place) << 63;
                }
                all.push(request);
            }
        }
    }
    all
}

/// Every kind that there is not.
fn bad_kinds() -> impl Iterator<Item = Request> {
    [0].into_iter().chain(9..=255).map(|kind| Request {
        kind,
        ..with_numbers(1, &[2.0, 1.0, 2.0])
    })
}

/// Good numbers for a kind: the identity, and ones on the right side.
fn good(kind: u8) -> Request {
    match kind {
        1 | 5 => with_numbers(kind, &[1.0, 0.0, 1.0]),
        2 | 6 => with_numbers(kind, &[1.0, 0.0, 1.0, 0.0, 0.0, 1.0]),
        3 => with_numbers(3, &[1.0, 0.0, 0.0, 1.0]),
        4 => with_numbers(4, &[1.0, 0.0, 0.0, 0.0, 1.0, 0.0, 0.0, 0.0, 1.0]),
        7 => with_numbers(7, &[1.0, 0.0, 1.0, 1.0, 1.0]),
        _ => with_numbers(8, &[1.0, 0.0, 1.0, 0.0, 0.0, 1.0, 1.0, 1.0, 1.0]),
    }
}

/// Each bit of the way and of each reserved byte, and in each number that the kind does not use the lowest bit, the highest, one in the middle, a
/// subnormal number, 1, an infinity, and NaNs.
fn not_zero(kind: u8) -> Vec<Request> {
    const ONE: u64 = 1.0f64.to_bits();
    const WORDS: [u64; 8] = [1, SIGN, 1 << 32, HIDDEN - 1, ONE, INFINITY, NAN, SIGN | NAN];
    let of = Kind::of(kind).expect("a known kind");
    let mut all = Vec::new();
    for byte in 0..3 {
        for bit in 0..8 {
            let mut request = good(kind);
            *byte_that_is_0(&mut request, byte) = 1 << bit;
            all.push(request);
        }
    }
    for place in 0..12 - of.nine - of.three {
        for word in WORDS {
            let mut request = good(kind);
            *unused_place(of, &mut request, place) = word;
            all.push(request);
        }
    }
    all
}

/// Each number that the kind uses: both infinities, and NaNs of both signs and both sorts. Then the same with a byte set that is to be 0,
/// which comes first.
fn not_finite(kind: u8) -> Vec<Request> {
    let of = Kind::of(kind).expect("a known kind");
    let mut all = Vec::new();
    for place in 0..of.nine + of.three {
        for word in [
            INFINITY,
            SIGN | INFINITY,
            INFINITY + 1,
            NAN,
            SIGN | NAN,
            SIGN - 1,
        ] {
            let mut request = good(kind);
            *used_place(of, &mut request, place) = word;
            all.push(request);
        }
        let mut both = *all.last().expect("one");
        *byte_that_is_0(&mut both, place % 3) = 1;
        all.push(both);
    }
    all
}

/// A third pivot that is NaN, through each sign of L21 and of L31, whatever the other three numbers are if A22 is above 0. Then the same
/// with what comes before it: a second pivot of 0, an infinity, and a reserved byte.
fn nan_pivots() -> Vec<Request> {
    const LEAST: f64 = f64::from_bits(1);
    const OTHERS: [[f64; 3]; TIMES as usize] = [
        [1.0, 0.0, 1.0],
        [1.0, -0.0, 0.0],
        [2.0, 1.0, -0.0],
        [0.5, -1.0, -1.0],
        [LEAST, f64::MAX, f64::MAX],
        [LEAST, -f64::MAX, -f64::MAX],
        [f64::MAX, LEAST, LEAST],
        [f64::MAX, f64::MAX, -f64::MAX],
    ];
    let mut all = Vec::new();
    for kind in [6, 8] {
        for [a11, a12, _, a13, ..] in NAN_PIVOTS {
            for [a22, a23, a33] in OTHERS {
                let mut request = good(kind);
                let matrix = [a11, a12, a22, a13, a23, a33];
                request.nine[..6].copy_from_slice(&matrix.map(f64::to_bits));
                all.push(request);
            }
            let mut before = [*all.last().expect("one"); 3];
            before[0].nine[2] = 0;
            before[1].nine[5] = INFINITY;
            before[2].reserved[1] = 1;
            all.extend(before);
        }
    }
    all
}

/// What the kind's mark turns on, with all that the subject of its mark lists.
fn blind_rotations(kind: u8) -> Vec<Request> {
    let of = Kind::of(kind).expect("a known kind");
    let listed = marks::listed(of.subject().operation);
    listed.iter().map(|a| with_numbers(kind, a)).collect()
}
