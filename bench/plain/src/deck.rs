//! The deck: time-out comes first, then quiet, then the byte.

use crate::reply::{self, Output, LONGEST};
use crate::settings::Settings;
use crate::time::DAY;

const ROOM: u8 = 1;
const LATE: u8 = 2;
const BACK: u8 = 3;
const FLAGS: u8 = 4;
const PLACE: u8 = 5;

const LAST_TIME: u64 = 281_474_976_710_655;
const LINE_FLAGS: u8 = 0x70;
const GAP: u64 = 10_000;
const QUIET: u64 = 10_000;

/// A limit that no time passes.
pub const NEVER: u64 = u64::MAX;

const TIME_OUT: u8 = 0x80;
const CHECKSUM: u8 = 0x04;
const UNDEFINED: u8 = 0x01;

pub struct Deck {
    clock: u64,
    limit: u64, // the latest time for the open block's next byte, never if no block is open
    free: u64,  // the first time after the latest quiet
    block: [u8; LONGEST],
    held: usize, // how many bytes of the open block have come
    size: usize, // how many it will have
    sum: u8,     // of those that have come
    pub settings: Settings,
}

/// A reply in the output. Its length is 0 where there is none.
#[derive(Clone, Copy)]
pub struct Sent {
    pub len: usize,
    pub due: u64,
}

/// The replies, which stand at the front of the output, or the number of a refusal, which changes nothing.
pub type Answer = Result<[Sent; 2], u8>;

const NONE: Sent = Sent { len: 0, due: 0 };

fn sent(len: usize, due: u64) -> Sent {
    if len == 0 { NONE } else { Sent { len, due } }
}

/// The part of the output that replies are written to: its length is known to the compiler.
fn front(out: &mut [u8]) -> Result<&mut Output, u8> {
    out.first_chunk_mut().ok_or(ROOM)
}

/// The four events.
impl Deck {
    pub fn power_on() -> Deck {
        let settings = Settings::power_on();
        Deck { clock: 0, limit: NEVER, free: 0, block: [0; LONGEST], held: 0, size: 0, sum: 0, settings }
    }

    #[inline]
    pub fn byte(&mut self, time: u64, content: u8, flags: u8, out: &mut [u8]) -> Answer {
        let out = front(out)?;
        self.test(time)?;
        if flags & !LINE_FLAGS != 0 {
            return Err(FLAGS);
        }
        self.clock = time;
        if self.is_late(time) {
            return Ok(self.late_byte(time, content, flags, out));
        }
        Ok([sent(self.hear(time, content, flags, out), time), NONE])
    }

    pub fn look(&mut self, time: u64, out: &mut [u8]) -> Answer {
        let out = front(out)?;
        self.test(time)?;
        Ok(self.pass(time, out))
    }

    pub fn position(&mut self, time: u64, place: u32, out: &mut [u8]) -> Answer {
        let out = front(out)?;
        self.test(time)?;
        if place >= DAY {
            return Err(PLACE);
        }
        self.settings.position = place;
        Ok(self.pass(time, out))
    }

    pub fn cassette(&mut self, time: u64, out: &mut [u8]) -> Answer {
        let out = front(out)?;
        self.test(time)?;
        self.settings.load();
        Ok(self.pass(time, out))
    }

    fn test(&self, time: u64) -> Result<(), u8> {
        if time > LAST_TIME {
            return Err(LATE);
        }
        if time < self.clock {
            return Err(BACK);
        }
        Ok(())
    }

    fn pass(&mut self, time: u64, out: &mut Output) -> [Sent; 2] {
        self.clock = time;
        if self.is_late(time) { [self.time_out(out), NONE] } else { [NONE; 2] }
    }

    /// The byte that finds a time-out fills no block.
    #[cold]
    fn late_byte(&mut self, time: u64, content: u8, flags: u8, out: &mut Output) -> [Sent; 2] {
        let first = self.time_out(out);
        if self.in_quiet(time) {
            return [first, NONE];
        }
        if flags != 0 {
            return [first, Sent { len: self.nak(time, flags, &mut out[first.len..]), due: time }];
        }
        self.begin(time, content);
        [first, NONE]
    }
}

/// What follows on the tests of the numbers. The marker makes the tests itself, and calls these.
impl Deck {
    pub fn clock(&self) -> u64 {
        self.clock
    }

    pub fn set_clock(&mut self, time: u64) {
        self.clock = time;
    }

    pub fn open(&self) -> &[u8] {
        &self.block[..self.held]
    }

    pub fn is_open(&self) -> bool {
        self.held != 0
    }

    pub fn in_quiet(&self, time: u64) -> bool {
        time < self.free
    }

    pub fn is_late(&self, time: u64) -> bool {
        time > self.limit
    }

    #[cold]
    pub fn time_out(&mut self, out: &mut Output) -> Sent {
        let due = self.limit + 1;
        Sent { len: self.nak(due, TIME_OUT, out), due }
    }

    /// A byte that is not late: the length of the reply, which is due at once.
    #[inline]
    pub fn hear(&mut self, time: u64, content: u8, flags: u8, out: &mut Output) -> usize {
        if self.in_quiet(time) {
            return 0;
        }
        if flags != 0 {
            return self.nak(time, flags, out);
        }
        if self.held == 0 {
            self.begin(time, content);
            return 0;
        }
        self.block[self.held] = content;
        self.held += 1;
        if self.held >= self.size {
            return self.full(time, content, out);
        }
        self.sum = self.sum.wrapping_add(content);
        self.limit = time + GAP;
        0
    }

    fn begin(&mut self, time: u64, content: u8) {
        self.block[0] = content;
        self.held = 1;
        self.size = (content & 15) as usize + 3;
        self.sum = content;
        self.limit = time + GAP;
    }

    /// Apart from `hear`, so that the bytes that fill no block do not pay for it.
    #[inline(never)]
    fn full(&mut self, time: u64, checksum: u8, out: &mut Output) -> usize {
        if checksum != self.sum {
            return self.nak(time, CHECKSUM, out);
        }
        self.void();
        match self.settings.execute(&self.block, out) {
            Some(len) => len,
            None => self.nak(time, UNDEFINED, out),
        }
    }

    fn void(&mut self) {
        self.held = 0;
        self.limit = NEVER;
    }

    #[cold]
    fn nak(&mut self, due: u64, bits: u8, out: &mut [u8]) -> usize {
        self.void();
        self.free = due + QUIET + 1;
        reply::nak(out, bits)
    }
}
