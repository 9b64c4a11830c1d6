//! Many records one after the other, in memory that does not grow with their number.

use crate::record::{answer, answer_to_part, ANSWER_BYTES, REQUEST_BYTES};
use std::fs::File;
use std::io::{self, ErrorKind, Read, Write};
use std::os::fd::AsFd;

/// So many requests are held at most.
const HELD: usize = 4096;

/// Answers all requests of the input, and a part of one at its end. What has come is answered before more is waited for.
pub fn answers(input: &mut impl Read, output: &mut impl Write) -> io::Result<()> {
    let mut requests = vec![0; HELD * REQUEST_BYTES];
    let mut answers = Vec::with_capacity(HELD * ANSWER_BYTES);
    let mut held = 0;
    loop {
        let more = read_some(input, &mut requests[held..])?;
        if more == 0 {
            break;
        }
        held += more;
        let whole = held - held % REQUEST_BYTES;
        answers.clear();
        for request in requests[..whole].chunks_exact(REQUEST_BYTES) {
            let request = request.try_into().expect("a request's bytes");
            answers.extend_from_slice(&answer(request));
        }
        output.write_all(&answers)?;
        requests.copy_within(whole..held, 0);
        held -= whole;
    }
    if held > 0 {
        output.write_all(&answer_to_part())?;
    }
    Ok(())
}

fn read_some(input: &mut impl Read, room: &mut [u8]) -> io::Result<usize> {
    loop {
        match input.read(room) {
            Err(error) if error.kind() == ErrorKind::Interrupted => {}
            other => return other,
        }
    }
}

/// Reads a record, and says how many bytes of it there were: fewer than its size only at the end.
pub fn read_record(input: &mut impl Read, record: &mut [u8]) -> io::Result<usize> {
    let mut held = 0;
    while held < record.len() {
        match read_some(input, &mut record[held..])? {
            0 => break,
            more => held += more,
        }
    }
    Ok(held)
}

/// Standard output as a file, so that bytes go out as they are handed over and none is looked at for an end of line.
pub fn standard_output() -> io::Result<File> {
    Ok(File::from(io::stdout().as_fd().try_clone_to_owned()?))
}
