//! Answers for a tally, by a seed alone: true ones, and such as no program of ours writes.

use crate::codes::{DONE, OF_RECORDS};
use crate::kinds::{AS_GIVEN, KINDS, OTHER, ROWS};
use crate::random::Random;
use crate::record::{answer, ANSWER_BYTES, CODE_AT, COUNT_AT, KIND_AT, SETTLED_AT};
use crate::requests;
use crate::tally::{Answer, Head};
use crate::ways::in_way;
use std::io::{self, Write};

/// The golden list: the listed answers, then so many true ones of this seed, and so many bytes of a further one.
const GOLDEN: (usize, u64, usize) = (600, 1, 100);

/// Of `count` records in the largest file so many are true, and so many random bytes.
const TRUE: u64 = 20;
const RANDOM: u64 = 10;

/// The records of a file that is cut.
const CUT: usize = 3;

/// An answered head, of which the others differ in a byte or two.
const ANSWERED: Head = Head {
    kind: 2,
    code: DONE as u8,
    turns: 0,
    mark: 1,
};

/// Whole records, and the bytes left over behind them.
pub struct AnswerFile {
    pub name: String,
    pub answers: Box<dyn Iterator<Item = Answer> + Send>,
    pub part: Vec<u8>,
}

/// The files of a run: none has more than `count` records but for those that are listed.
pub fn files(count: u64, seed: u64) -> Vec<AnswerFile> {
    let mut random = Random::new(seed);
    let mut all = vec![
        file("empty", [].into_iter()),
        with_heads("listed", random.word(), listed().into_iter()),
        with_heads("two bytes", random.word(), two_bytes()),
        file("true", true_answers(random.word(), count / TRUE)),
        file("random", random_bytes(random.word(), count / RANDOM)),
    ];
    let mut source = Random::new(random.word());
    let any_heads = (0..count).map(move |_| any(&mut source));
    all.push(with_heads("many", random.word(), any_heads));
    for length in 0..ANSWER_BYTES {
        all.push(cut(&mut random, length));
    }
    all
}

fn file(name: &str, answers: impl Iterator<Item = Answer> + Send + 'static) -> AnswerFile {
    AnswerFile {
        name: String::from(name),
        answers: Box::new(answers),
        part: Vec::new(),
    }
}

fn with_heads(
    name: &str,
    seed: u64,
    heads: impl Iterator<Item = Head> + Send + 'static,
) -> AnswerFile {
    let mut random = Random::new(seed);
    file(name, heads.map(move |head| with_head(&mut random, head)))
}

/// Some records, and so many bytes of a further one that a tally would count.
fn cut(random: &mut Random, length: usize) -> AnswerFile {
    let answers: Vec<Answer> = (0..CUT).map(|_| with_any(random)).collect();
    AnswerFile {
        name: format!("{CUT} records and {length} bytes"),
        answers: Box::new(answers.into_iter()),
        part: with_head(random, ANSWERED)[..length].to_vec(),
    }
}

/// Writes the golden list.
pub fn write_golden(output: &mut impl Write) -> io::Result<()> {
    let (count, seed, part) = GOLDEN;
    let mut random = Random::new(seed);
    for head in listed() {
        output.write_all(&with_head(&mut random, head))?;
    }
    for answer in true_answers(random.word(), count as u64) {
        output.write_all(&answer)?;
    }
    output.write_all(&with_head(&mut random, ANSWERED)[..part])?;
    output.flush()
}

/// An answer with this head, and any bytes beside it.
fn with_head(random: &mut Random, head: Head) -> Answer {
    let mut answer = random_answer(random);
    answer[KIND_AT] = head.kind;
    answer[CODE_AT] = head.code;
    answer[COUNT_AT] = head.turns;
    answer[SETTLED_AT] = head.mark;
    answer
}

fn random_answer(random: &mut Random) -> Answer {
    let mut answer = [0; ANSWER_BYTES];
    for word in answer.chunks_exact_mut(8) {
        word.copy_from_slice(&random.word().to_le_bytes());
    }
    answer
}

fn random_bytes(seed: u64, count: u64) -> impl Iterator<Item = Answer> {
    let mut random = Random::new(seed);
    (0..count).map(move |_| random_answer(&mut random))
}

fn true_answers(seed: u64, count: u64) -> impl Iterator<Item = Answer> {
    let mut random = Random::new(seed);
    (0..count).map(move |_| answer(&in_way(&requests::any(&mut random), AS_GIVEN).bytes()))
}

fn with_any(random: &mut Random) -> Answer {
    let head = any(random);
    with_head(random, head)
}

/// Any head, each byte of it most often one that is known.
fn any(random: &mut Random) -> Head {
    let byte = random.bits(8) as u8;
    let mut head = Head {
        kind: 1 + random.below(8) as u8,
        code: OF_RECORDS[random.below(OF_RECORDS.len() as u64) as usize] as u8,
        turns: random.below(26) as u8,
        mark: random.below(2) as u8,
    };
    match random.below(16) {
        0 => head.kind = byte,
        1 => head.code = byte,
        2 => head.turns = byte,
        3 => head.mark = byte,
        4 => head.kind = [0, 9, 255][random.below(3) as usize],
        5 => head.code = random.below(16) as u8,
        6 => head.turns = 24 + random.below(4) as u8,
        7 => head.mark = random.below(4) as u8,
        8..11 => head.turns = 0,
        _ => {}
    }
    head
}

/// Each two of the four bytes with all that they can be, beside those of an answer.
fn two_bytes() -> impl Iterator<Item = Head> {
    let pairs = [[0, 1], [0, 2], [0, 3], [1, 2], [1, 3], [2, 3]];
    let both = pairs
        .into_iter()
        .flat_map(|pair| (0..=u16::MAX).map(move |value| (pair, value)));
    both.map(|(pair, value)| {
        let mut bytes = [ANSWERED.kind, ANSWERED.code, ANSWERED.turns, ANSWERED.mark];
        for (place, byte) in pair.into_iter().zip(value.to_le_bytes()) {
            bytes[place] = byte;
        }
        let [kind, code, turns, mark] = bytes;
        Head {
            kind,
            code,
            turns,
            mark,
        }
    })
}

/// One by one what chance may leave out: each code of each row with each mark; every code; and every kind, mark and number of
/// rotations, with code 0, where they may be foreign, and with another code, where they are not looked at.
fn listed() -> Vec<Head> {
    let in_turn = |of: &[u8], byte: u8| of[usize::from(byte) % of.len()];
    let kinds: Vec<u8> = (1..=KINDS.len() as u8).collect();
    let still: Vec<u8> = (1..)
        .zip(&KINDS)
        .filter(|(_, kind)| !kind.counts)
        .map(|(k, _)| k)
        .collect();
    let refusals: Vec<u8> = OF_RECORDS[1..].iter().map(|code| *code as u8).collect();
    let mut all = Vec::new();
    for kind in OTHER as u8..=ROWS as u8 {
        for code in OF_RECORDS.map(|code| code as u8) {
            all.extend([0, 1].map(|mark| Head {
                kind,
                code,
                turns: 0,
                mark,
            }));
        }
    }
    for byte in 0..=u8::MAX {
        let kind = in_turn(&kinds, byte);
        let refused = Head {
            kind,
            code: in_turn(&refusals, byte),
            turns: 0,
            mark: 0,
        };
        all.extend([
            Head {
                kind,
                code: byte,
                ..ANSWERED
            },
            Head {
                kind: byte,
                ..ANSWERED
            },
            Head {
                kind,
                mark: byte,
                ..ANSWERED
            },
            Head {
                kind: 2,
                turns: byte,
                ..ANSWERED
            },
            Head {
                kind: 4,
                turns: byte,
                ..ANSWERED
            },
            Head {
                kind: in_turn(&still, byte),
                turns: byte,
                ..ANSWERED
            },
            Head {
                kind: byte,
                ..refused
            },
            Head {
                turns: byte,
                ..refused
            },
            Head {
                mark: byte,
                ..refused
            },
        ]);
    }
    all
}
