//! The numbers to work on, made by a fixed rule: every run has the same ones.

const FIRST_NORMAL: u64 = 1 << 52;
const INFINITY: u64 = 0x7FF << 52;

/// The generator SplitMix64.
struct Words(u64);

impl Words {
    fn next(&mut self) -> u64 {
        self.0 = self.0.wrapping_add(0x9E37_79B9_7F4A_7C15);
        let z = (self.0 ^ (self.0 >> 30)).wrapping_mul(0xBF58_476D_1CE4_E5B9);
        let z = (z ^ (z >> 27)).wrapping_mul(0x94D0_49BB_1331_11EB);
        z ^ (z >> 31)
    }

    fn below(&mut self, bound: u64) -> u64 {
        self.next() % bound
    }
}

/// Any positive normal, each exponent as likely as any other.
fn normal(words: &mut Words) -> f64 {
    f64::from_bits(FIRST_NORMAL + words.below(INFINITY - FIRST_NORMAL))
}

/// A positive subnormal with any number of leading zeros.
fn subnormal(words: &mut Words) -> f64 {
    let digits = words.below(FIRST_NORMAL) >> words.below(52);
    f64::from_bits(digits.max(1))
}

/// Any multiple of 2^-52 from -1 on and below 1, each as likely as any other.
#[cfg(clarabel)]
fn of_ordinary_size(words: &mut Words) -> f64 {
    words.below(1 << 53) as f64 / (1u64 << 52) as f64 - 1.0
}

pub fn normals(count: usize) -> Vec<f64> {
    let mut words = Words(1);
    (0..count).map(|_| normal(&mut words)).collect()
}

/// From 1 up to 2, as the sums are whose roots a rotation takes.
pub fn from_one_to_two(count: usize) -> Vec<f64> {
    let mut words = Words(4);
    let mut some = || 1.0 + words.below(1 << 52) as f64 / (1u64 << 52) as f64;
    (0..count).map(|_| some()).collect()
}

/// Normals and subnormals in random order.
pub fn half_subnormals(count: usize) -> Vec<f64> {
    let mut words = Words(2);
    let kinds = [normal, subnormal];
    (0..count)
        .map(|_| kinds[words.below(2) as usize](&mut words))
        .collect()
}

/// Numbers of ordinary size, N at a time.
#[cfg(clarabel)]
pub fn ordinary<const N: usize>(count: usize) -> Vec<[f64; N]> {
    let mut words = Words(3);
    let mut some = || std::array::from_fn(|_| of_ordinary_size(&mut words));
    (0..count).map(|_| some()).collect()
}

/// The same with 4 added in some places. With these on the diagonal a symmetric matrix has a factor, and
/// a factor has nothing small to divide by.
#[cfg(clarabel)]
pub fn with_diagonal<const N: usize>(count: usize, places: &[usize]) -> Vec<[f64; N]> {
    let mut all = ordinary(count);
    for numbers in &mut all {
        for place in places {
            numbers[*place] += 4.0;
        }
    }
    all
}
