//! The stored cases of crates/mark_cases and crates/deck_cases, and the lines to print for them.

use std::fmt::Write as _;

use crate::deck::{Answer, Deck};
use crate::marker::{mark, Marked};
use crate::settings::Point;

/// What a lent output holds before a call.
const FILL: u8 = 0xAA;

fn take<'a>(input: &mut &'a [u8], size: usize) -> &'a [u8] {
    let (taken, rest) = input.split_at(size);
    *input = rest;
    taken
}

fn take_byte(input: &mut &[u8]) -> u8 {
    take(input, 1)[0]
}

/// A number of that many bytes, lowest first.
fn take_number(input: &mut &[u8], size: usize) -> u64 {
    take(input, size).iter().rev().fold(0, |number, byte| number << 8 | *byte as u64)
}

/// A case is the record's length, the number of table places, and the record.
pub fn marker(mut input: &[u8]) -> String {
    let mut said = String::new();
    while !input.is_empty() {
        let length = take_number(&mut input, 4) as usize;
        let places = take_number(&mut input, 4) as usize;
        let record = take(&mut input, length);
        let mut starts = vec![u32::MAX; places];
        let marked = mark(record, &mut starts);
        assert!(starts[marked.count..].iter().all(|start| *start == u32::MAX), "the rest is untouched");
        let Marked { number, fault, place, count } = marked;
        let _ = writeln!(said, "{number} {fault} {place} {count}");
        show_text(&mut said, &marked, &starts[..count]);
    }
    said
}

/// What the program `mark` prints.
fn show_text(said: &mut String, marked: &Marked, starts: &[u32]) {
    let Marked { number, fault, place, count } = marked;
    let _ = match (number, fault) {
        (0, 0) => writeln!(said, "sound {count}"),
        (0, _) => writeln!(said, "fault {fault} at {place}"),
        _ => writeln!(said, "refused {number}"),
    };
    for start in starts {
        let _ = writeln!(said, "turn {start}");
    }
}

/// A call is a letter, the size of the output to lend, a time, a length and that many argument bytes.
pub fn deck(mut input: &[u8]) -> String {
    let mut said = String::new();
    let mut deck = Deck::power_on();
    while !input.is_empty() {
        let letter = take_byte(&mut input);
        let room = take_byte(&mut input);
        let time = take_number(&mut input, 8);
        let length = take_byte(&mut input);
        let mut args = take(&mut input, length as usize);
        let out = &mut vec![FILL; room as usize][..];
        match letter {
            b'b' => bytes(&mut said, &mut deck, time, args, out),
            b'l' => show(&mut said, deck.look(time, out), out),
            b'p' => show(&mut said, deck.position(time, take_number(&mut args, 4) as u32, out), out),
            b'c' => show(&mut said, deck.cassette(time, out), out),
            _ => {
                show_deck(&mut said, &deck);
                deck = Deck::power_on();
            }
        }
    }
    said
}

/// Each byte is by how much it is later than the one before, its flags, its content.
fn bytes(said: &mut String, deck: &mut Deck, mut time: u64, mut args: &[u8], out: &mut [u8]) {
    while !args.is_empty() {
        time += take_number(&mut args, 2);
        let flags = take_byte(&mut args);
        let content = take_byte(&mut args);
        out.fill(FILL);
        show(said, deck.byte(time, content, flags, out), out);
    }
}

fn hex(said: &mut String, bytes: &[u8]) {
    for byte in bytes {
        let _ = write!(said, " {byte:02X}");
    }
}

fn show(said: &mut String, answer: Answer, mut out: &[u8]) {
    match answer {
        Err(number) => {
            let _ = writeln!(said, "no {number}");
        }
        Ok(replies) => {
            for reply in replies.iter().filter(|reply| reply.len != 0) {
                let _ = write!(said, "reply {}", reply.due);
                hex(said, take(&mut out, reply.len));
                *said += "\n";
            }
        }
    }
    assert!(out.iter().all(|byte| *byte == FILL), "the rest is untouched");
}

fn show_deck(said: &mut String, deck: &Deck) {
    let settings = &deck.settings;
    let on = |point: &Point| if point.on { "on" } else { "off" };
    let (from, to) = (&settings.inpoint, &settings.outpoint);
    let _ = write!(said, "deck {} [", deck.clock());
    hex(said, deck.open());
    *said += " ]";
    hex(said, &settings.status());
    let _ = write!(said, " at {} in {} {} out {} {}", settings.position, from.at, on(from), to.at, on(to));
    let _ = writeln!(said, " speed {}", settings.speed);
}
