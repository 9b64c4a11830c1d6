//! The picture beside the tables, docs/benchmarks.svg: the ratio of each line as a bar, and nanoseconds a
//! record against the size of a file.

use crate::programs::Files;
use crate::race::{nanoseconds, ratio_in_words, Race};
use std::fs;

const PICTURE: &str = "docs/benchmarks.svg";

const WIDTH: f64 = 920.0;
/// Where the bars and the curves stand, and what is left for the names and the numbers beside them.
const LEFT: f64 = 210.0;
const RIGHT: f64 = 740.0;
const TOP: f64 = 96.0;
const ROW: f64 = 20.0;
const GAP: f64 = 12.0;
const CURVES: f64 = 220.0;

const INK: &str = "#222222";
const GRID: &str = "#d8d8d8";
/// A rim around letters, where they stand on the grid.
const HALO: &str = "stroke=\"#ffffff\" stroke-width=\"3\" paint-order=\"stroke\"";
const OURS: &str = "#b5541c";
const THEIRS: &str = "#2f6f9f";

/// What ours is held beside, the colour of its bars, and what it is.
const BESIDES: [(&str, &str, &str); 7] = [
    ("hardware", "#7a7a7a", "the processor's root"),
    ("crate", "#b5541c", "the crate's kernel"),
    ("single", "#c79a2b", "calls on one matrix"),
    ("old way", "#3f8f8f", "our record in the old way"),
    ("oracle", "#2f6f9f", "the oracle"),
    ("straight", "#5f9f6f", "written straight in Rust"),
    ("reading", "#8f6fa0", "reading the file"),
];

pub fn write(races: &[Race], files: &Files, machine: &str) -> Result<(), String> {
    let tops = tops(races);
    let bottom = tops[tops.len() - 1] + ROW;
    let height = bottom + CURVES + 150.0;
    let mut drawn = format!(
        "<svg xmlns=\"http://www.w3.org/2000/svg\" viewBox=\"0 0 {WIDTH} {height}\" \
         font-family=\"sans-serif\" font-size=\"12\" fill=\"{INK}\">\n\
         <rect width=\"{WIDTH}\" height=\"{height}\" fill=\"#ffffff\"/>\n"
    );
    drawn += &text(
        20.0,
        28.0,
        "start",
        16,
        &format!("How many times as long ours takes, on {machine}"),
    );
    drawn += &legend();
    drawn += &scale(bottom);
    for (race, top) in races.iter().zip(&tops) {
        drawn += &bar(race, *top);
    }
    drawn += &Curves::of(files, bottom + 90.0).drawn();
    drawn += "</svg>\n";
    fs::write(PICTURE, drawn).map_err(|why| format!("{PICTURE}: {why}"))
}

fn text(x: f64, y: f64, anchor: &str, size: u32, words: &str) -> String {
    let words = words.replace('&', "&amp;").replace('<', "&lt;");
    format!("<text x=\"{x:.1}\" y=\"{y:.1}\" text-anchor=\"{anchor}\" font-size=\"{size}\" {HALO}>{words}</text>\n")
}

fn line(from: (f64, f64), to: (f64, f64), colour: &str) -> String {
    let ((x, y), (u, v)) = (from, to);
    format!("<line x1=\"{x:.1}\" y1=\"{y:.1}\" x2=\"{u:.1}\" y2=\"{v:.1}\" stroke=\"{colour}\"/>\n")
}

/// The upper edge of each bar. Lines that are of one sort stand together.
fn tops(races: &[Race]) -> Vec<f64> {
    let sort = |race: &Race| (race.beside, race.what.starts_with("record"));
    let mut top = TOP;
    let mut tops = vec![top];
    for pair in races.windows(2) {
        top += ROW;
        if sort(&pair[0]) != sort(&pair[1]) {
            top += GAP;
        }
        tops.push(top);
    }
    tops
}

/// Ratios from 1/4 to 64, each doubling as wide as any other.
fn across(ratio: f64) -> f64 {
    let share = (ratio.log2() + 2.0) / 8.0;
    LEFT + (RIGHT - LEFT) * share.clamp(0.0, 1.0)
}

fn scale(bottom: f64) -> String {
    let mut drawn = String::new();
    for (power, name) in (-2..).zip(["1/4", "1/2", "1", "2", "4", "8", "16", "32", "64"]) {
        let x = across(f64::from(power).exp2());
        let colour = if power == 0 { INK } else { GRID };
        drawn += &line((x, TOP - 6.0), (x, bottom + 2.0), colour);
        drawn += &text(x, bottom + 18.0, "middle", 12, name);
    }
    let words = "ratio (1: as long; to the left: ours is faster)";
    drawn + &text(across(4.0), bottom + 36.0, "middle", 12, words)
}

/// Two lines of four.
fn legend() -> String {
    let mut drawn = String::new();
    for (i, (_, colour, what)) in BESIDES.iter().enumerate() {
        let (x, y) = (20.0 + 178.0 * (i % 4) as f64, 42.0 + 18.0 * (i / 4) as f64);
        drawn +=
            &format!("<rect x=\"{x}\" y=\"{y}\" width=\"12\" height=\"12\" fill=\"{colour}\"/>\n");
        drawn += &text(x + 18.0, y + 11.0, "start", 12, what);
    }
    drawn
}

/// From 1 to the ratio, with the name before it and the numbers behind it.
fn bar(race: &Race, top: f64) -> String {
    let ratio = race.ratio().median;
    let (from, to) = (across(ratio.min(1.0)), across(ratio.max(1.0)));
    let found = BESIDES.iter().find(|beside| beside.0 == race.beside);
    let (_, colour, _) = found.expect("a known side");
    let (width, middle) = ((to - from).max(1.0), top + 0.7 * ROW);
    let (ours, theirs) = (nanoseconds(race.ours()), nanoseconds(race.theirs()));
    let numbers = format!("{}  ({ours} / {theirs} ns)", ratio_in_words(ratio));
    let mut drawn = text(LEFT - 10.0, middle, "end", 12, &race.what);
    drawn += &format!(
        "<rect x=\"{from:.1}\" y=\"{:.1}\" width=\"{width:.1}\" height=\"{:.1}\" fill=\"{colour}\"/>\n",
        top + 2.0,
        ROW - 4.0
    );
    drawn + &text(to + 6.0, middle, "start", 12, &numbers)
}

/// Nanoseconds a record, from 0 up, against the number of records, each power of ten as wide as any other.
struct Curves {
    names: Vec<String>,
    times: Vec<[f64; 2]>,
    bottom: f64,
    /// Between two marks, and how many there are above 0.
    step: f64,
    marks: f64,
}

impl Curves {
    fn of(files: &Files, top: f64) -> Self {
        let times: Vec<[f64; 2]> = files.a_record().collect();
        let most = times
            .iter()
            .flatten()
            .fold(0.0, |most: f64, time| most.max(*time));
        let steps = [50.0, 100.0, 200.0, 500.0, 1000.0, 2000.0];
        let step = steps.into_iter().find(|step| most / step < 8.0);
        let step = step.unwrap_or(5000.0);
        Self {
            names: files
                .sizes
                .iter()
                .map(|size| size.records.to_string())
                .collect(),
            times,
            bottom: top + CURVES,
            step,
            marks: (most / step).ceil(),
        }
    }

    fn up(&self, time: f64) -> f64 {
        self.bottom - (CURVES - 20.0) * time / (self.marks * self.step)
    }

    fn along(&self, i: usize) -> f64 {
        let share = i as f64 / (self.times.len() - 1) as f64;
        LEFT + 30.0 + (RIGHT - LEFT - 60.0) * share
    }

    fn drawn(&self) -> String {
        let title = "The program on a night's file: ns a record, its start taken off";
        let mut drawn = text(20.0, self.bottom - CURVES - 12.0, "start", 16, title);
        for mark in 0..=self.marks as usize {
            let time = self.step * mark as f64;
            let y = self.up(time);
            drawn += &line((LEFT, y), (RIGHT, y), GRID);
            drawn += &text(LEFT - 10.0, y + 4.0, "end", 12, &format!("{time} ns"));
        }
        for (i, name) in self.names.iter().enumerate() {
            drawn += &text(self.along(i), self.bottom + 18.0, "middle", 12, name);
        }
        let middle = (LEFT + RIGHT) / 2.0;
        drawn += &text(
            middle,
            self.bottom + 38.0,
            "middle",
            12,
            "records in the file",
        );
        drawn += &self.curve(0, "the program", OURS);
        drawn + &self.curve(1, "the oracle's", THEIRS)
    }

    fn curve(&self, side: usize, name: &str, colour: &str) -> String {
        let times = self.times.iter().map(|sides| sides[side]).enumerate();
        let mut drawn = String::new();
        let mut before = None;
        for (i, time) in times {
            let place = (self.along(i), self.up(time));
            if let Some(before) = before {
                drawn += &line(before, place, colour);
            }
            let (x, y) = place;
            drawn += &format!("<circle cx=\"{x:.1}\" cy=\"{y:.1}\" r=\"4\" fill=\"{colour}\"/>\n");
            drawn += &text(x, y - 9.0, "middle", 12, &format!("{time:.0}"));
            before = Some(place);
        }
        let (_, y) = before.expect("a size");
        drawn + &text(RIGHT + 10.0, y + 4.0, "start", 12, name)
    }
}
