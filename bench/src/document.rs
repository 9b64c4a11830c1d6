//! The tables in docs/BENCHMARKS.md, between two lines that stay.

use crate::programs::Files;
use crate::race::{nanoseconds, ratio_in_words, Race};
use std::fs;

const DOCUMENT: &str = "docs/BENCHMARKS.md";
const FROM: &str = "<!-- `bench/run --write` writes from here -->\n";
const TO: &str = "<!-- to here -->\n";

pub fn write(races: &[Race], files: &Files, machine: &str) -> Result<(), String> {
    let failed = |why: &dyn std::fmt::Display| format!("{DOCUMENT}: {why}");
    let old = fs::read_to_string(DOCUMENT).map_err(|why| failed(&why))?;
    let (before, rest) = old.split_once(FROM).ok_or_else(|| failed(&"no place"))?;
    let (_, after) = rest
        .split_once(TO)
        .ok_or_else(|| failed(&"no end of the place"))?;
    let tables = format!(
        "\nOn {machine}.\n\n{}\n{}\n![The ratios, and nanoseconds a record](benchmarks.svg)\n\n",
        table_of_races(races),
        table_of_files(files),
    );
    let new = [before, FROM, &tables, TO, after].concat();
    fs::write(DOCUMENT, new).map_err(|why| failed(&why))
}

fn table_of_races(races: &[Race]) -> String {
    let mut table = String::from(
        "| What | Ours, ns | Beside | Theirs, ns | Ratio | Least and most |\n\
         |---|--:|---|--:|--:|--:|\n",
    );
    for race in races {
        let (ours, theirs) = (nanoseconds(race.ours()), nanoseconds(race.theirs()));
        let ratio = race.ratio();
        let [least, median, most] = [ratio.least, ratio.median, ratio.most].map(ratio_in_words);
        let (what, beside) = (&race.what, race.beside);
        table +=
            &format!("| {what} | {ours} | {beside} | {theirs} | {median} | {least}, {most} |\n");
    }
    table
}

/// The first row is the empty file, which has no time a record.
fn table_of_files(files: &Files) -> String {
    let start = &files.start;
    let mut table = format!(
        "| Records | Program, ms | Oracle, ms | Ratio | Program, ns a record | Oracle, ns a record \
         | Peak memory, kB | As proved, kB |\n|--:|--:|--:|--:|--:|--:|--:|--:|\n\
         | 0 | {:.1} | {:.1} | {:.2} | | | | |\n",
        start.ours() / 1e6,
        start.theirs() / 1e6,
        start.ratio().median
    );
    for (size, [ours, theirs]) in files.sizes.iter().zip(files.a_record()) {
        let [our_whole, their_whole] = size.whole().map(|whole| whole / 1e6);
        let ratio = size.race.ratio().median;
        let [here, proved] = size.memory;
        table += &format!(
            "| {} | {our_whole:.1} | {their_whole:.1} | {ratio:.2} | {ours:.0} | {theirs:.0} | {here} | {proved} |\n",
            size.records
        );
    }
    table
}
