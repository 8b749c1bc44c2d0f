//! The deck and the marker of document 01 in plain Rust, for a comparison of speed (`bench/ratio`).
//!
//! `plain [N]` marks the record on standard input N times (once if N is not given) and prints as the program `mark` does.
//! `plain --deck N` sends the bytes on standard input to one deck N times, all bytes of a round at one time, and counts the replies.
//! `plain --cases` and `plain --deck-cases` read the stdin of crates/mark_cases and crates/deck_cases and print what must stand in
//! their stdout.

use std::env;
use std::fmt::Write as _;
use std::hint::black_box;
use std::io::{self, Read, Write as _};

mod cases;
mod deck;
mod marker;
mod reply;
mod settings;
mod speed;
mod time;

use deck::Deck;
use marker::{mark, Marked, ENTRY};
use reply::LONGEST;

fn verdict(marked: Marked) -> String {
    match (marked.number, marked.fault) {
        (0, 0) => format!("sound {}\n", marked.count),
        (0, fault) => format!("fault {} at {}\n", fault, marked.place),
        (number, _) => format!("refused {}\n", number),
    }
}

fn mark_times(record: &[u8], times: u64) -> String {
    let mut starts = vec![0; record.len() / ENTRY];
    let mut marked = mark(record, &mut starts);
    for _ in 1..times {
        marked = mark(black_box(record), black_box(&mut starts));
    }
    let mut said = verdict(marked);
    for start in &starts[..marked.count] {
        let _ = writeln!(said, "turn {start}");
    }
    said
}

/// Counts the calls that give a reply. Apart from `main`, so that the loop has the registers.
#[inline(never)]
fn play(bytes: &[u8], times: u64) -> String {
    let mut deck = Deck::power_on();
    let mut out = [0; LONGEST];
    let mut replies = 0u64;
    for time in 0..times {
        for content in black_box(bytes) {
            if let Ok([first, _]) = deck.byte(time, *content, 0, &mut out) {
                replies += (first.len != 0) as u64;
            }
        }
        black_box(&out);
    }
    format!("replies {replies}\n")
}

fn number(text: &str) -> u64 {
    text.parse().expect("a number of times")
}

fn main() -> io::Result<()> {
    let arguments: Vec<String> = env::args().skip(1).collect();
    let arguments: Vec<&str> = arguments.iter().map(String::as_str).collect();
    let mut input = Vec::new();
    io::stdin().read_to_end(&mut input)?;
    let said = match arguments[..] {
        ["--cases"] => cases::marker(&input),
        ["--deck-cases"] => cases::deck(&input),
        ["--deck", times] => play(&input, number(times)),
        [times] => mark_times(&input, number(times)),
        [] => mark_times(&input, 1),
        _ => panic!("plain [N] | --deck N | --cases | --deck-cases"),
    };
    io::stdout().write_all(said.as_bytes())
}
