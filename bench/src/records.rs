//! Whole records, from a request's bytes to the answer's: the C entry beside the oracle's reference; and a record in the scaled way
//! beside one in the old way, both by the C entry.

use crate::race::{race, Race};
use crate::straight;
use reference::cholesky::NAN_PIVOTS;
use reference::kinds::KINDS;
use reference::nights;
use reference::random::Random;
use reference::record::{answer, Request, ANSWER_BYTES, CODE_AT, NUMBERS_AT, REQUEST_BYTES};
use std::hint::black_box;

/// So many requests are answered in a turn.
const REQUESTS: usize = 4096;

/// The program answers so many after a read, into one and the same room.
const AT_ONCE: usize = 372;

/// Where a request has its way, and that of a matrix that is worked as it is given.
const WAY_AT: usize = 5;
const OLD_WAY: u8 = 1;

/// The first of the kinds have both ways.
const SCALED_KINDS: u8 = 4;

/// The unit of the tiny matrices: it brings what is near 1 to about 1e-14.
const TINY: f64 = 1.0 / (1u64 << 47) as f64;

/// Takes a request's bytes and their count, and writes the answer's.
type Step = unsafe extern "C" fn(*const u8, usize, *mut u8, usize) -> u8;

extern "C" {
    fn zanikory_answer_record(request: *const u8, m: usize, answer: *mut u8, n: usize) -> u8;
}

// What it is held beside stands behind calls of the same shape, so that both sides pay for one.

#[inline(never)]
unsafe extern "C" fn reference_step(request: *const u8, _: usize, out: *mut u8, _: usize) -> u8 {
    // SAFETY: the caller lends a request's bytes and an answer's, which do not overlap.
    let (request, out) = unsafe { lent(request, out) };
    *out = answer(request);
    out[CODE_AT]
}

#[inline(never)]
unsafe extern "C" fn straight_step(request: *const u8, _: usize, out: *mut u8, _: usize) -> u8 {
    // SAFETY: the caller lends a request's bytes and an answer's, which do not overlap.
    let (request, out) = unsafe { lent(request, out) };
    straight::answer(request, out);
    out[CODE_AT]
}

unsafe fn lent<'a>(
    request: *const u8,
    out: *mut u8,
) -> (&'a [u8; REQUEST_BYTES], &'a mut [u8; ANSWER_BYTES]) {
    // SAFETY: the caller has so many bytes of each.
    unsafe { (&*request.cast(), &mut *out.cast()) }
}

/// Answers whole requests into as much room as they need, and adds up the codes.
fn answer_all(step: Step, requests: &[u8], room: &mut [u8]) -> u64 {
    let requests = requests.chunks_exact(REQUEST_BYTES);
    let places = room.chunks_exact_mut(ANSWER_BYTES);
    let pairs = requests.zip(places);
    pairs.fold(0, |codes, (request, place)| {
        let (request, place) = (request.as_ptr(), place.as_mut_ptr());
        // SAFETY: each step takes any request's bytes, and writes an answer's.
        codes + u64::from(unsafe { step(request, REQUEST_BYTES, place, ANSWER_BYTES) })
    })
}

/// A turn: as many at once as the program answers. Both sides run through this one loop, and the compiler
/// cannot see which function it calls.
#[inline(never)]
fn answered(step: Step, requests: &[u8]) -> u64 {
    let step = black_box(step);
    let mut room = [0; AT_ONCE * ANSWER_BYTES];
    let mut codes = 0;
    for some in requests.chunks(AT_ONCE * REQUEST_BYTES) {
        codes += answer_all(step, some, &mut room);
        black_box(&room);
    }
    codes
}

/// What ours is held beside.
#[derive(Clone, Copy)]
struct Beside {
    name: &'static str,
    step: Step,
}

const ORACLE: Beside = Beside {
    name: "oracle",
    step: reference_step,
};

const STRAIGHT: Beside = Beside {
    name: "straight",
    step: straight_step,
};

fn bytes_of(requests: &[Request]) -> Vec<u8> {
    requests.iter().flat_map(Request::bytes).collect()
}

/// All bytes of all answers are compared before the clock runs, since to look at 176 bytes takes as long
/// as to write them; in each round it is the codes. `code` is that of every answer.
fn race_of_records(
    what: &str,
    beside: Beside,
    code: u8,
    requests: &[Request],
) -> Result<Race, String> {
    let bytes = bytes_of(requests);
    let mut ours = vec![1; requests.len() * ANSWER_BYTES];
    let mut theirs = vec![2; requests.len() * ANSWER_BYTES];
    let codes = answer_all(zanikory_answer_record, &bytes, &mut ours);
    answer_all(beside.step, &bytes, &mut theirs);
    if ours != theirs {
        return Err(format!("{what}: the answers differ from {}", beside.name));
    }
    if codes != u64::from(code) * requests.len() as u64 {
        return Err(format!("{what}: not every code is {code}"));
    }
    let ours = || answered(zanikory_answer_record, &bytes);
    let theirs = || answered(beside.step, &bytes);
    race(what, beside.name, requests.len(), ours, theirs)
}

fn of_a_night(random: &mut Random, kind: u8) -> Request {
    let (nine, three) = nights::request(random, kind);
    Request {
        event: random.bits(32) as u32,
        kind,
        nine: nine.map(f64::to_bits),
        three: three.map(f64::to_bits),
        ..Request::default()
    }
}

/// So many requests that are answered with 0, by whatever makes any.
fn all_done(count: usize, make: impl FnMut() -> Request) -> Vec<Request> {
    let mut room = [0; ANSWER_BYTES];
    let mut done =
        |request: &Request| answer_all(zanikory_answer_record, &request.bytes(), &mut room) == 0;
    let any = std::iter::repeat_with(make);
    any.filter(|request| done(request)).take(count).collect()
}

/// A night's requests, each of any kind.
pub fn night(count: usize) -> Vec<Request> {
    let mut random = Random::new(8);
    all_done(count, || {
        let kind = 1 + random.below(8) as u8;
        of_a_night(&mut random, kind)
    })
}

pub fn all(tell: &mut dyn FnMut(Race)) -> Result<(), String> {
    for (kind, of) in (1..).zip(&KINDS) {
        let mut random = Random::new(u64::from(kind));
        let requests = all_done(REQUESTS, || of_a_night(&mut random, kind));
        let what = format!("record, {}", of.name);
        tell(race_of_records(&what, ORACLE, 0, &requests)?);
    }
    tell(race_of_records(
        "record, a night",
        ORACLE,
        0,
        &night(REQUESTS),
    )?);
    let nan_pivot = changed(6, |request| {
        for place in [0, 1, 3] {
            request.nine[place] = NAN_PIVOTS[0][place].to_bits();
        }
    });
    tell(race_of_records(
        "record, refused with 9",
        ORACLE,
        9,
        &nan_pivot,
    )?);
    Ok(())
}

/// A night's request with its matrix divided by the power of two under its largest magnitude, so that both ways work the same matrix.
fn near_one(mut request: Request) -> Request {
    let nine = request.nine.map(f64::from_bits);
    let largest = nine
        .iter()
        .fold(0.0, |largest: f64, x| largest.max(x.abs()));
    let power = f64::from_bits(largest.to_bits() >> 52 << 52);
    request.nine = nine.map(|x| (x / power).to_bits());
    request
}

/// The same in another unit.
fn in_unit(request: &Request, unit: f64) -> Request {
    let nine = request.nine.map(|x| (f64::from_bits(x) * unit).to_bits());
    Request { nine, ..*request }
}

/// Requests' bytes in the old way.
fn in_the_old_way(requests: &[Request]) -> Vec<u8> {
    let mut bytes = bytes_of(requests);
    for request in bytes.chunks_exact_mut(REQUEST_BYTES) {
        request[WAY_AT] = OLD_WAY;
    }
    bytes
}

/// Matrices near 1 times a unit in the scaled way, beside the same near 1 in the old way, so that both make the same rotations. The
/// answers are compared before the clock runs: they are the same, but for the unit of the values.
fn race_of_ways(what: &str, requests: &[Request], unit: f64) -> Result<Race, String> {
    const BESIDE: &str = "old way";
    let given: Vec<Request> = requests.iter().map(|one| in_unit(one, unit)).collect();
    let (scaled, old) = (bytes_of(&given), in_the_old_way(requests));
    let mut ours = vec![1; requests.len() * ANSWER_BYTES];
    let mut theirs = vec![2; requests.len() * ANSWER_BYTES];
    let codes = answer_all(zanikory_answer_record, &scaled, &mut ours);
    answer_all(zanikory_answer_record, &old, &mut theirs);
    for place in theirs.chunks_exact_mut(ANSWER_BYTES) {
        for value in place[NUMBERS_AT..NUMBERS_AT + 3 * 8].chunks_exact_mut(8) {
            let x = f64::from_le_bytes((&*value).try_into().expect("eight bytes"));
            value.copy_from_slice(&(x * unit).to_le_bytes());
        }
    }
    if ours != theirs || codes != 0 {
        return Err(format!("{what}: the answers differ from the {BESIDE}"));
    }
    let ours = || answered(zanikory_answer_record, &scaled);
    let theirs = || answered(zanikory_answer_record, &old);
    race(what, BESIDE, requests.len(), ours, theirs)
}

/// What the scaling costs: each kind that has both ways, of ordinary size and in tiny units.
pub fn ways(tell: &mut dyn FnMut(Race)) -> Result<(), String> {
    for (kind, of) in (1..=SCALED_KINDS).zip(&KINDS) {
        let mut random = Random::new(u64::from(kind));
        let requests = all_done(REQUESTS, || near_one(of_a_night(&mut random, kind)));
        for (size, unit) in [("scaled", 1.0), ("tiny units", TINY)] {
            let what = format!("record, {}, {size}", of.name);
            tell(race_of_ways(&what, &requests, unit)?);
        }
    }
    Ok(())
}

/// Requests of a kind with something changed, so that they are refused or no kernel has anything to do.
fn changed(kind: u8, change: impl Fn(&mut Request)) -> Vec<Request> {
    let mut random = Random::new(u64::from(kind));
    let one = |_| {
        let mut request = of_a_night(&mut random, kind);
        change(&mut request);
        request
    };
    (0..REQUESTS).map(one).collect()
}

/// The codec alone: refused by the kind; by the last of all the bytes that must be zero; by the last
/// number that is used, when all have been read and looked at; and diagonal matrices, where nine numbers
/// are read and 21 written with no rotation and no root between.
pub fn codec(tell: &mut dyn FnMut(Race)) -> Result<(), String> {
    let kind = changed(2, |request| request.kind = 9);
    let byte = changed(2, |request| request.three[2] = 1 << 63);
    let number = changed(8, |request| request.three[2] = f64::NAN.to_bits());
    let diagonal = changed(4, |request| {
        for place in [1, 2, 3, 5, 6, 7] {
            request.nine[place] = 0;
        }
    });
    for beside in [ORACLE, STRAIGHT] {
        tell(race_of_records("codec, refused with 3", beside, 3, &kind)?);
        tell(race_of_records("codec, refused with 4", beside, 4, &byte)?);
        tell(race_of_records(
            "codec, refused with 5",
            beside,
            5,
            &number,
        )?);
        tell(race_of_records("codec, diagonal", beside, 0, &diagonal)?);
    }
    Ok(())
}
