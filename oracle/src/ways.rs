//! Requests in both ways. The makers of requests leave the way at 0, or set it to what no request may have; here a request gets its way.

use crate::kinds::{divided, Kind, AS_GIVEN, DEFAULT};
use crate::numbers::{all_finite, number};
use crate::powers::power_of;
use crate::record::Request;

/// Wrong for every kind.
const WRONG: u8 = 2;

/// Whether a request of a maker can be asked in both ways.
pub fn has_both(request: &Request) -> bool {
    request.way == DEFAULT && Kind::of(request.kind).is_some_and(|kind| kind.scales)
}

/// The request in this way, where its kind has two. What was made with a wrong way is wrong in both.
pub fn in_way(request: &Request, way: u8) -> Request {
    let scales = Kind::of(request.kind).is_some_and(|kind| kind.scales);
    Request {
        way: match request.way {
            DEFAULT if scales => way,
            AS_GIVEN if scales => WRONG,
            other => other,
        },
        ..*request
    }
}

/// Whether a request that has no fault is scaled, and then by which power of two it is divided. What is not finite is not looked at.
pub fn power_for(request: &Request) -> Option<i64> {
    let nine = request.nine.map(number);
    (has_both(request) && all_finite(&nine)).then(|| power_of(&nine))
}

/// The request whose numbers are those that are worked on: the given ones, or the divided ones.
pub fn worked_on(request: &Request) -> Request {
    let Some(k) = power_for(request) else {
        return *request;
    };
    Request {
        way: AS_GIVEN,
        nine: divided(&request.nine.map(number), k).map(f64::to_bits),
        ..*request
    }
}
