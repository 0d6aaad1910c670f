//! Times requests to the library against the ordinary implementation that is written for speed:
//! `cargo run --release --example speed`. It prints a table and draws docs/speed.svg.
//!
//! Before a case is timed, both decide it on copies of one image, and all numbers and the whole images after it must be the same.

use std::fs;
use std::hint::black_box;

use ask::ask;
use cases::{Case, Change, CHANGES};
use plot::{draw, Series};
use race::{race_to, ratio, shown};
use reference::Request;

#[path = "../tests/support/ask.rs"]
mod ask;
#[path = "support/cases.rs"]
mod cases;
#[allow(dead_code)]
#[path = "../tests/support/encoder.rs"]
mod encoder;
#[allow(dead_code)]
#[path = "../tests/support/lease_row.rs"]
mod lease_row;
#[path = "support/plot.rs"]
mod plot;
#[allow(dead_code)]
#[path = "support/race.rs"]
mod race;
#[allow(dead_code)]
#[path = "../tests/support/random.rs"]
mod random;
#[allow(dead_code)]
#[path = "../tests/support/uuid.rs"]
mod uuid;

/// The sizes of descriptors: their names and their numbers of grants.
const SIZES: [(&str, usize); 2] = [("450 B", 1), ("25 KB", 256)];

/// The file of the plot, and the colours of the two.
const PLOT: &str = concat!(env!("CARGO_MANIFEST_DIR"), "/../../docs/speed.svg");
const LIBRARY: &str = "#0072b2";
const ORDINARY: &str = "#d55e00";

fn main() {
    println!("| rows | descriptors | answer | request | library | ordinary Rust | ratio |");
    println!("|---|---|---|---|---|---|---|");
    for (size, grants) in SIZES {
        for rows in [1, 64, 1024] {
            let granted = Case::granted(rows, grants);
            for change in &CHANGES {
                let (library, ordinary) = times(&granted, change);
                println!(
                    "| {rows} | {size} | {} | {} | {} | {} | {} |",
                    change.answer,
                    change.name,
                    shown(library),
                    shown(ordinary),
                    ratio(library, ordinary)
                );
            }
        }
    }
    plot_granted();
}

/// Times granted requests at several numbers of rows, and draws the times.
fn plot_granted() {
    let mut lines = Vec::new();
    for ((size, grants), dashed) in SIZES.into_iter().zip([false, true]) {
        let (mut library, mut ordinary) = (Vec::new(), Vec::new());
        for rows in [1, 4, 16, 64, 256, 1024] {
            let (one, other) = times(&Case::granted(rows, grants), &CHANGES[0]);
            library.push((rows, one));
            ordinary.push((rows, other));
        }
        let sides = [
            ("library", LIBRARY, library),
            ("ordinary Rust", ORDINARY, ordinary),
        ];
        lines.extend(sides.map(|(name, colour, points)| Series {
            label: format!("{name}, {size}"),
            colour,
            dashed,
            points,
        }));
    }
    let title = "A granted request, by the rows of the image and the size of its descriptors";
    fs::write(PLOT, draw(title, &lines)).expect("the plot can be written");
}

/// The times of both for a changed request.
fn times(granted: &Case, change: &Change) -> (f64, f64) {
    let mut case = granted.clone();
    (change.make)(&mut case);
    let asked = case.asked();
    let (mut held, mut other) = (case.image.clone(), case.image.clone());
    decide_alike(&mut held, &mut other, &asked, change);
    let times = race_to(
        change.answer,
        || black_box(ask(black_box(&mut held), black_box(&asked))).answer,
        || black_box(tuned::request(black_box(&mut other), black_box(&asked))).answer,
    );
    assert!(held == other, "{}: the images differ", change.name);
    times
}

/// Lets both decide, and asks that all numbers and the images after it are the same, and the answer as expected.
fn decide_alike(held: &mut [u8], other: &mut [u8], asked: &Request, change: &Change) {
    let (one, two) = (ask(held, asked), tuned::request(other, asked));
    let one = (
        one.answer,
        one.grant,
        one.mask,
        one.session_end.0,
        one.margin.0,
    );
    let two = (two.answer, two.grant, two.mask, two.session_end, two.margin);
    assert_eq!(one, two, "{}", change.name);
    assert_eq!(one.0, change.answer, "{}", change.name);
    assert!(held == other, "{}: the images differ", change.name);
}
