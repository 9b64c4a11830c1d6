//! The places of a request by its kind, and requests that fill those that it uses.

use crate::kinds::{Kind, KINDS};
use crate::random::Random;
use crate::record::Request;
use crate::subject::{Hits, Subject};

/// The bytes that are 0 in what a maker makes: the way, and the reserved ones.
pub fn byte_that_is_0(request: &mut Request, number: usize) -> &mut u8 {
    match number {
        0 => &mut request.way,
        _ => &mut request.reserved[number - 1],
    }
}

/// A place that the kind does not use, counted through the nine and then the three.
pub fn unused_place<'a>(of: &Kind, request: &'a mut Request, number: usize) -> &'a mut u64 {
    let (nine, three) = (&mut request.nine[of.nine..], &mut request.three[of.three..]);
    nine.iter_mut()
        .chain(three)
        .nth(number)
        .expect("an unused place")
}

/// A place that the kind uses, counted in the same way.
pub fn used_place<'a>(of: &Kind, request: &'a mut Request, number: usize) -> &'a mut u64 {
    let (nine, three) = (&mut request.nine[..of.nine], &mut request.three[..of.three]);
    nine.iter_mut()
        .chain(three)
        .nth(number)
        .expect("a used place")
}

/// The input with this number of the kind's subject; beyond its listed ones it is one at random.
pub fn of_its_subject(random: &mut Random, kind: u8, number: u64) -> Request {
    of_subject(random, kind, KINDS[usize::from(kind) - 1].subject(), number)
}

/// The same of a subject with the kind's call.
pub fn of_subject(random: &mut Random, kind: u8, subject: &Subject, number: u64) -> Request {
    let of = &KINDS[usize::from(kind) - 1];
    let mut words = [0; 40];
    let words = &mut words[..subject.words_in];
    let mut uncounted = Hits(vec![0; subject.branches.len()]);
    (subject.input)(random, number, words, &mut uncounted);
    with_words(kind, &words[of.before()..])
}

/// A request with these patterns in the places that its kind uses.
pub fn with_words(kind: u8, words: &[u64]) -> Request {
    let mut request = Request {
        kind,
        ..Request::default()
    };
    let (nine, three) = words.split_at(KINDS[usize::from(kind) - 1].nine);
    request.nine[..nine.len()].copy_from_slice(nine);
    request.three[..three.len()].copy_from_slice(three);
    request
}
