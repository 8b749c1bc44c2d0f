//! The marker: hands the entries to a deck, and compares the deck bytes among them with its replies.

use crate::deck::{Deck, NEVER};
use crate::reply::{Output, LONGEST};
use crate::time::DAY;

pub const ENTRY: usize = 12;
const LONGEST_RECORD: usize = 65_532;
const FIRST: u64 = 9_000;
const LATER: u64 = 10_000;

const ROOM: u32 = 1;
const RECORD: u32 = 10;

const MALFORMED: u32 = 20;
const FALLS: u32 = 21;
const UNAWAITED: u32 = 22;
const DIFFERS: u32 = 23;
const OVERDUE: u32 = 24;
const INTERRUPTS: u32 = 25;
const STOPS: u32 = 26;

// An entry's first eight bytes as one number: kind, flags, content, and two bytes of the time. One test of these bits tells both
// the kind and that the rest is well formed. Free are the lowest byte of the content and, of a controller byte, the line flags.
const OF_CONTROLLER_BYTE: u64 = 0xFFFF_FF00_8FFF;
const OF_DECK_BYTE: u64 = 0xFFFF_FF00_FFFF;
const OF_POSITION: u64 = 0x0000_0000_FFFF;
const OF_CASSETTE: u64 = 0xFFFF_FFFF_FFFF;

#[derive(Clone, Copy, Default)]
pub struct Marked {
    pub number: u32,
    pub fault: u32,
    pub place: usize,
    pub count: usize,
}

struct Marker<'a> {
    deck: Deck,
    reply: Output, // lent to the deck
    len: usize,
    come: usize, // how many bytes of the reply have come
    latest: u64, // for the next one, never if none is awaited
    starts: &'a mut [u32],
    count: usize,
}

impl Marker<'_> {
    fn awaits(&self) -> bool {
        self.latest != NEVER
    }

    fn expect(&mut self, len: usize, due: u64) {
        self.len = len;
        self.come = 0;
        self.latest = due + FIRST;
    }

    /// Takes the entry, or gives the first fault that applies.
    #[inline]
    fn step(&mut self, place: usize, entry: &[u8; ENTRY]) -> Result<(), u32> {
        let head = u64::from_le_bytes(*entry.first_chunk().unwrap());
        let time = u64::from_le_bytes(*entry.last_chunk().unwrap()) >> 16;
        let flags = (head >> 8) as u8;
        let content = (head >> 16) as u32;
        if head & OF_CONTROLLER_BYTE == 0 {
            self.pass(time)?;
            self.controller_byte(place, time, content as u8, flags)?;
        } else if head & OF_DECK_BYTE == 1 {
            self.pass(time)?;
            self.deck_byte(time, content as u8)?;
        } else if head & OF_POSITION == 2 && content < DAY {
            self.pass(time)?;
            self.deck.settings.position = content;
        } else if head & OF_CASSETTE == 3 {
            self.pass(time)?;
            self.deck.settings.load();
        } else {
            return Err(MALFORMED);
        }
        Ok(())
    }

    /// The tests of the time. The deck may find a time-out.
    #[inline]
    fn pass(&mut self, time: u64) -> Result<(), u32> {
        if time < self.deck.clock() {
            return Err(FALLS);
        }
        self.deck.set_clock(time);
        if self.deck.is_late(time) {
            let sent = self.deck.time_out(&mut self.reply);
            self.expect(sent.len, sent.due);
        }
        if time > self.latest {
            return Err(OVERDUE);
        }
        Ok(())
    }

    #[inline]
    fn controller_byte(&mut self, place: usize, time: u64, content: u8, flags: u8) -> Result<(), u32> {
        if self.deck.in_quiet(time) {
            return Ok(());
        }
        if self.awaits() {
            return Err(INTERRUPTS);
        }
        if !self.deck.is_open() {
            self.starts[self.count] = place as u32;
            self.count += 1;
        }
        let len = self.deck.hear(time, content, flags, &mut self.reply);
        if len != 0 {
            self.expect(len, time);
        }
        Ok(())
    }

    #[inline]
    fn deck_byte(&mut self, time: u64, content: u8) -> Result<(), u32> {
        if !self.awaits() {
            return Err(UNAWAITED);
        }
        if content != self.reply[self.come] {
            return Err(DIFFERS);
        }
        self.come += 1;
        self.latest = if self.come < self.len { time + LATER } else { NEVER };
        Ok(())
    }

    fn inside_turn(&self) -> bool {
        self.deck.is_open() || self.awaits()
    }
}

pub fn mark(record: &[u8], starts: &mut [u32]) -> Marked {
    let (entries, rest) = record.as_chunks();
    if !rest.is_empty() || record.len() > LONGEST_RECORD {
        return Marked { number: RECORD, ..Marked::default() };
    }
    if starts.len() < entries.len() {
        return Marked { number: ROOM, ..Marked::default() };
    }
    let deck = Deck::power_on();
    let mut marker = Marker { deck, reply: [0; LONGEST], len: 0, come: 0, latest: NEVER, starts, count: 0 };
    for (place, entry) in entries.iter().enumerate() {
        if let Err(fault) = marker.step(place, entry) {
            return Marked { number: 0, fault, place, count: marker.count };
        }
    }
    let fault = if marker.inside_turn() { STOPS } else { 0 };
    Marked { number: 0, fault, place: entries.len(), count: marker.count }
}
