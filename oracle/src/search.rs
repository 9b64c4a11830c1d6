//! A search for 3x3 matrices with long runs, by the crate's own steps alone: no probe is asked. Symmetric ones as they are given, and
//! both sorts scaled, so that their largest magnitude is from 1 up to 2.
//!
//! Half of the matrices are new ones of all kinds, and half are the best so far with a place or two changed.

use crate::eigen;
use crate::numbers::{all_finite, beside, even, power_of_two, whole, with_sign};
use crate::powers::{power_of, times};
use crate::random::Random;
use crate::rotations::{LIMIT, MOST};
use crate::svd;

/// What is searched: matrices of K numbers, how one is brought to its scale, and the end of its run, where that is finite.
struct Search<const K: usize> {
    goals: &'static [Goal<K>],
    matrix: fn(&mut Random) -> [f64; K],
    scale: fn([f64; K]) -> [f64; K],
    run: fn([f64; K]) -> Option<End>,
}

/// What is looked for: the score of a matrix and its end, the higher the better, where it has one.
struct Goal<const K: usize> {
    name: &'static str,
    score: fn(&[f64; K], &End) -> Option<f64>,
}

/// The end of a run: its rotations, whether it is settled, and the largest number beside the diagonal, at the end and before the last
/// rotation.
struct End {
    count: u64,
    settled: bool,
    left: f64,
    before: f64,
}

const AS_GIVEN: [Goal<6>; 6] = [
    Goal {
        name: "most rotations that settle, none on the diagonal larger than one beside it",
        score: |a, end| settled(end, beside_size(a) >= diagonal_size(a), end.count as f64),
    },
    Goal {
        name: "most rotations that settle, of numbers up to 1",
        score: |a, end| settled(end, size(a) <= 1.0, end.count as f64),
    },
    Goal {
        name: "more than 12 rotations that settle, of the smallest numbers",
        score: |a, end| settled(end, end.count > 12, -size(a)),
    },
    Goal {
        name: "25 rotations that settle, of the smallest numbers",
        score: |a, end| settled(end, end.count == MOST, -size(a)),
    },
    Goal {
        name: "25 rotations that do not settle, of the smallest numbers",
        score: |a, end| (!end.settled).then_some(-size(a)),
    },
    Goal {
        name: "25 rotations that leave a number nearest to 2^-44 from above",
        score: |_, end| (!end.settled).then_some(-end.left),
    },
];

/// The goals of matrices that are scaled.
const fn scaled_goals<const K: usize>() -> [Goal<K>; 3] {
    [
        Goal {
            name: "most rotations that settle",
            score: |_, end| settled(end, true, end.length()),
        },
        Goal {
            name:
                "most rotations that settle, of numbers on the diagonal within 2^-30 of each other",
            score: |a, end| settled(end, is_level(a), end.length()),
        },
        Goal {
            name: "rotations that do not settle",
            score: |_, end| (!end.settled).then_some(end.left),
        },
    ]
}

const SCALED_EIGEN: [Goal<6>; 3] = scaled_goals();
const SCALED_SVD: [Goal<9>; 3] = scaled_goals();

impl End {
    /// The rotations, and of as many the more the larger the number was that the last one took away.
    fn length(&self) -> f64 {
        self.count as f64 + (self.before.log2() + 44.0) / 64.0
    }
}

fn settled(end: &End, meets: bool, score: f64) -> Option<f64> {
    (end.settled && meets).then_some(score)
}

fn diagonal_size(a: &[f64; 6]) -> f64 {
    a[0].abs().max(a[2].abs()).max(a[5].abs())
}

fn beside_size(a: &[f64; 6]) -> f64 {
    a[1].abs().max(a[3].abs()).max(a[4].abs())
}

fn size(a: &[f64; 6]) -> f64 {
    diagonal_size(a).max(beside_size(a))
}

/// Whether the numbers on the diagonal are nearly equal, of a symmetric matrix or of one by columns.
fn is_level<const K: usize>(a: &[f64; K]) -> bool {
    let [x, y, z] = if K == 6 { [0, 2, 5] } else { [0, 4, 8] }.map(|i| a[i]);
    let near = |x: f64, y: f64| (x - y).abs() < power_of_two(-30);
    near(x, y) && near(y, z)
}

fn eigen_end(a: [f64; 6]) -> Option<End> {
    let mut before = 0.0;
    let end = eigen::run(a, |a, at| before = a.data[at].abs());
    all_finite(&end.a.data).then(|| End {
        count: end.count,
        settled: end.settled,
        left: beside_size(&end.a.data),
        before,
    })
}

fn svd_end(a: [f64; 9]) -> Option<End> {
    let mut before = 0.0;
    let end = svd::run(a, |a, p, q| before = a[(p, q)].abs() + a[(q, p)].abs());
    let left = svd::sizes_of(&end.a).into_iter().fold(0.0, f64::max);
    all_finite(&end.a.data).then_some(End {
        count: end.count,
        settled: end.settled,
        left,
        before,
    })
}

/// Looks at so many symmetric matrices as they are given.
pub fn eigen(count: u64, seed: u64) {
    let of = Search {
        goals: &AS_GIVEN,
        matrix: |random| eigen::matrix(random).1,
        scale: |a| a,
        run: eigen_end,
    };
    search(&of, count, seed);
}

/// Looks at so many symmetric matrices that are scaled, and at as many that are not symmetric.
pub fn scaled(count: u64, seed: u64) {
    let symmetric = Search {
        goals: &SCALED_EIGEN,
        matrix: |random| eigen::matrix(random).1,
        scale: to_scale,
        run: eigen_end,
    };
    println!("eigenvalues");
    search(&symmetric, count, seed);
    let square = Search {
        goals: &SCALED_SVD,
        matrix: |random| svd::matrix(random).1,
        scale: to_scale,
        run: svd_end,
    };
    println!("singular values");
    search(&square, count, seed);
}

fn to_scale<const K: usize>(a: [f64; K]) -> [f64; K] {
    let k = power_of(&a);
    a.map(|x| times(x, -k))
}

struct Best<const K: usize> {
    score: f64,
    a: [f64; K],
}

/// Prints the best for each goal, and how long the runs were.
fn search<const K: usize>(of: &Search<K>, count: u64, seed: u64) {
    let mut random = Random::new(seed);
    let mut best: Vec<Option<Best<K>>> = of.goals.iter().map(|_| None).collect();
    let mut lengths = [0u64; MOST as usize + 1];
    let mut unsettled = 0;
    for _ in 0..count {
        let chosen = &best[random.below(best.len() as u64) as usize];
        let a = (of.scale)(match chosen {
            Some(best) if random.bits(1) == 0 => changed(&mut random, best.a),
            _ => (of.matrix)(&mut random),
        });
        if !all_finite(&a) {
            continue;
        }
        let Some(end) = (of.run)(a) else {
            continue;
        };
        lengths[end.count as usize] += 1;
        unsettled += u64::from(!end.settled);
        for (goal, best) in of.goals.iter().zip(&mut best) {
            let Some(score) = (goal.score)(&a, &end) else {
                continue;
            };
            // one that is as good is taken too, so that the search moves on
            if best.as_ref().is_none_or(|best| score >= best.score) {
                *best = Some(Best { score, a });
            }
        }
    }
    report(of, &best);
    println!("matrices by their rotations, of {count}, with {unsettled} not settled:");
    for (rotations, count) in lengths.iter().enumerate() {
        println!("    {rotations:2} {count}");
    }
}

fn report<const K: usize>(of: &Search<K>, best: &[Option<Best<K>>]) {
    for (goal, best) in of.goals.iter().zip(best) {
        println!("{}:", goal.name);
        match best {
            Some(best) => show(of, best.a),
            None => println!("    none"),
        }
    }
}

fn show<const K: usize>(of: &Search<K>, a: [f64; K]) {
    let end = (of.run)(a).expect("a finite end");
    let state = if end.settled {
        String::from("settled")
    } else {
        let over = end.left.to_bits() - LIMIT.to_bits();
        format!("not settled, the largest left {over} numbers above 2^-44")
    };
    println!("    {} rotations, {state}:", end.count);
    let bits = a.map(|x| format!("{:016X}", x.to_bits()));
    let decimal = a.map(|x| format!("{x:e}"));
    println!("    {}", bits.join(" "));
    println!("    {}", decimal.join(" "));
}

/// The matrix with one place or two changed, or all of them alike, by much or by little.
fn changed<const K: usize>(random: &mut Random, mut a: [f64; K]) -> [f64; K] {
    let by = 1.0 + even(random) * power_of_two(whole(random, -52, -2));
    if random.below(8) == 0 {
        return a.map(|x| by * x);
    }
    for _ in 0..1 + random.below(2) {
        let at = random.below(K as u64) as usize;
        let x = a[at];
        a[at] = match random.below(6) {
            0 => beside(random, x.abs(), 4).copysign(x),
            1 => by * x,
            2 => x * power_of_two(whole(random, -2, 2)),
            3 => with_sign(random, x),
            4 => a[random.below(K as u64) as usize],
            _ => x * even(random),
        };
    }
    a
}
