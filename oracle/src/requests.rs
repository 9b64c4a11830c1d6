//! Requests for a run, by a seed alone: first the listed ones, then any number at random, and last a part of one.

use crate::float::{subnormal, SIGN};
use crate::kinds::{Kind, AS_GIVEN};
use crate::listed::{listed, once, scalings};
use crate::nights;
use crate::numbers::{finite, not_finite};
use crate::places::{byte_that_is_0, of_its_subject, of_subject, unused_place, used_place};
use crate::random::Random;
use crate::record::{Request, REQUEST_BYTES};
use crate::scalings;
use crate::ways::{has_both, in_way};
use std::io::{self, Write};

/// The golden list: so many requests of this seed as they are given, and the same scaled.
const GOLDEN: (u64, u64) = (5397, 1);

/// One in so many of the random requests is about a mark, and one is about a scaling.
const MARKS: u64 = 16;

/// Random requests, by a seed. Marks and scalings have random numbers of their own, so that they leave the other requests as they are.
struct Source {
    any: Random,
    of_marks: Random,
    of_scalings: Random,
}

impl Source {
    fn new(seed: u64) -> Self {
        Self {
            any: Random::new(seed),
            of_marks: Random::new(!seed),
            of_scalings: Random::new(seed.swap_bytes()),
        }
    }

    /// The request with this number, with no way yet.
    fn request(&mut self, number: u64) -> Request {
        match number % MARKS {
            0 => about_a_mark(&mut self.of_marks),
            _ => any(&mut self.any),
        }
    }

    /// The same in either way, or one about a scaling.
    fn in_a_way(&mut self, number: u64) -> Request {
        if number % MARKS == MARKS / 2 {
            return about_a_scaling(&mut self.of_scalings);
        }
        let way = self.of_scalings.below(2) as u8;
        in_way(&self.request(number), way)
    }

    /// A part of a further request.
    fn part(&mut self) -> Vec<u8> {
        let length = 1 + self.any.below(REQUEST_BYTES as u64 - 1) as usize;
        in_way(&any(&mut self.any), AS_GIVEN).bytes()[..length].to_vec()
    }
}

/// Writes so many whole requests, and a part of a further one.
pub fn write(count: u64, seed: u64, output: &mut impl Write) -> io::Result<()> {
    let mut source = Source::new(seed);
    let listed = listed();
    for number in 0..count {
        let request = match listed.get(number as usize) {
            Some(request) => *request,
            None => source.in_a_way(number),
        };
        output.write_all(&request.bytes())?;
    }
    output.write_all(&source.part())?;
    output.flush()
}

/// Writes the golden list.
pub fn write_golden(output: &mut impl Write) -> io::Result<()> {
    let (count, seed) = GOLDEN;
    let mut source = Source::new(seed);
    let mut all = once();
    all.extend((all.len() as u64..count).map(|number| source.request(number)));
    let as_given = all.iter().map(|one| in_way(one, AS_GIVEN));
    let scaled = all.iter().copied().filter(has_both).chain(scalings());
    for request in as_given.chain(scaled) {
        output.write_all(&request.bytes())?;
    }
    output.write_all(&source.part())?;
    output.flush()
}

/// A request of any kind: of a night, of the kind's own difficult inputs, or one that is refused for its form.
pub fn any(random: &mut Random) -> Request {
    let kind = 1 + random.below(8) as u8;
    let mut request = match random.below(3) {
        0 => of_a_night(random, kind),
        _ => of_its_subject(random, kind, u64::MAX),
    };
    request.event = event(random);
    match random.below(16) {
        0 => request.kind = bad_kind(random),
        1 => set_unused(random, &mut request),
        2 => spoil_used(random, &mut request),
        3 => spoil_all(random, &mut request),
        _ => {}
    }
    request
}

/// A request on one side or the other of a blind rotation.
fn about_a_mark(random: &mut Random) -> Request {
    let kind = 1 + random.below(4) as u8;
    let mark = Kind::of(kind).and_then(Kind::mark).expect("a mark");
    let mut request = of_subject(random, kind, mark, u64::MAX);
    request.event = event(random);
    request
}

/// A request, in the way that is the default, whose numbers are hard to scale.
fn about_a_scaling(random: &mut Random) -> Request {
    let kind = 1 + random.below(4) as u8;
    Request {
        event: event(random),
        ..scalings::hard(random, kind)
    }
}

fn event(random: &mut Random) -> u32 {
    match random.below(16) {
        0 => 0,
        1 => u32::MAX,
        2 => random.below(1000) as u32,
        _ => random.bits(32) as u32,
    }
}

fn of_a_night(random: &mut Random, kind: u8) -> Request {
    let (nine, three) = nights::request(random, kind);
    Request {
        kind,
        nine: nine.map(f64::to_bits),
        three: three.map(f64::to_bits),
        ..Request::default()
    }
}

fn bad_kind(random: &mut Random) -> u8 {
    match random.below(4) {
        0 => 0,
        1 => 9,
        2 => 255,
        _ => 9 + random.below(247) as u8,
    }
}

/// Sets a byte that is to be 0, or a number that the kind does not use, and now and then several.
fn set_unused(random: &mut Random, request: &mut Request) {
    let of = Kind::of(request.kind).expect("a known kind");
    let unused = 12 - of.nine - of.three;
    loop {
        match random.below(3 + unused as u64) as usize {
            byte @ 0..3 => *byte_that_is_0(request, byte) = 1 + random.below(255) as u8,
            place => *unused_place(of, request, place - 3) = not_zero(random),
        }
        if random.below(4) > 0 {
            return;
        }
    }
}

/// A pattern with a bit set: also of a zero, and of what is no number.
fn not_zero(random: &mut Random) -> u64 {
    match random.below(6) {
        0 => SIGN,
        1 => 1 + subnormal(random),
        2 => not_finite(random),
        3 => 1 << random.below(64),
        4 => finite(random).to_bits() | 1,
        _ => 1.0f64.to_bits(),
    }
}

fn spoil_used(random: &mut Random, request: &mut Request) {
    let of = Kind::of(request.kind).expect("a known kind");
    for _ in 0..1 + random.below(2) {
        let place = random.below((of.nine + of.three) as u64) as usize;
        *used_place(of, request, place) = not_finite(random);
    }
}

/// Several faults at once, so that the order of the codes shows, or bytes of all sorts.
fn spoil_all(random: &mut Random, request: &mut Request) {
    match random.below(4) {
        0 => {
            spoil_used(random, request);
            set_unused(random, request);
        }
        1 => {
            spoil_used(random, request);
            set_unused(random, request);
            request.kind = bad_kind(random);
        }
        2 => {
            let mut bytes = [0; REQUEST_BYTES];
            bytes.fill_with(|| random.bits(8) as u8);
            bytes[4] = request.kind;
            *request = Request::of(&bytes);
        }
        _ => {
            let byte = [0, 255, random.bits(8) as u8][random.below(3) as usize];
            *request = Request::of(&[byte; REQUEST_BYTES]);
        }
    }
}
