//! What the commands set and tell.

use crate::reply::{self, Output, LONGEST};
use crate::speed::SPEED;
use crate::time::{frame_back, frame_on, to_position, to_time};

#[derive(Clone, Copy)]
enum Mode {
    None,
    Stop,
    Play,
    Record,
    FastForward,
    Rewind,
    Jog,
    Variable,
    Shuttle,
}

impl Mode {
    /// Its bits in the status bytes 1 and 2.
    fn bits(self) -> (u8, u8) {
        match self {
            Mode::None => (0, 0),
            Mode::Stop => (1 << 5, 0),
            Mode::Rewind => (1 << 3, 0),
            Mode::FastForward => (1 << 2, 0),
            Mode::Record => (1 << 1, 0),
            Mode::Play => (1 << 0, 0),
            Mode::Shuttle => (0, 1 << 5),
            Mode::Jog => (0, 1 << 4),
            Mode::Variable => (0, 1 << 3),
        }
    }
}

/// In or Out.
#[derive(Clone, Copy)]
pub struct Point {
    pub at: u32,
    pub on: bool,
}

pub struct Settings {
    loaded: bool,
    mode: Mode,
    pub speed: i32,
    local: bool,
    standby: bool,
    cue_done: bool,
    pub position: u32,
    pub inpoint: Point,
    pub outpoint: Point,
}

fn bit(number: u8, on: bool) -> u8 {
    (on as u8) << number
}

fn speed(n: u8) -> i32 {
    SPEED[n as usize]
}

impl Settings {
    pub fn power_on() -> Settings {
        let point = Point { at: 0, on: false };
        Settings {
            loaded: true,
            mode: Mode::Stop,
            speed: 0,
            local: true,
            standby: false,
            cue_done: false,
            position: 0,
            inpoint: point,
            outpoint: point,
        }
    }

    /// Writes the reply to a full block with a right checksum; none if its code or its data is undefined.
    #[inline]
    pub fn execute(&mut self, block: &[u8; LONGEST], out: &mut Output) -> Option<usize> {
        // The first byte has the count in it, so that the data of every code stand at a fixed place. The code is matched as two bytes:
        // measured, that is faster than as one number.
        let [first, command, n, b, c, d, ..] = *block;
        match (first, command) {
            (0x00, 0x0C) => self.local = false,
            (0x00, 0x1D) => self.local = true,
            (0x00, 0x11) => return Some(reply::device_type(out)),
            (0x20, 0x00) => self.motion(Mode::Stop, 0),
            (0x20, 0x01) => self.motion(Mode::Play, 1_000),
            (0x20, 0x02) => self.motion(Mode::Record, 1_000),
            (0x20, 0x10) => self.motion(Mode::FastForward, 32_000),
            (0x20, 0x20) => self.motion(Mode::Rewind, -32_000),
            (0x20, 0x04) => self.standby = false,
            (0x20, 0x05) => self.standby = true,
            (0x20, 0x0F) => {
                self.motion(Mode::None, 0);
                self.loaded = false;
            }
            (0x21, 0x11) => self.motion(Mode::Jog, speed(n)),
            (0x21, 0x12) => self.motion(Mode::Variable, speed(n)),
            (0x21, 0x13) => self.motion(Mode::Shuttle, speed(n)),
            (0x21, 0x21) => self.motion(Mode::Jog, -speed(n)),
            (0x21, 0x22) => self.motion(Mode::Variable, -speed(n)),
            (0x21, 0x23) => self.motion(Mode::Shuttle, -speed(n)),
            (0x20, 0x14) => self.step(frame_on(self.position)),
            (0x20, 0x24) => self.step(frame_back(self.position)),
            (0x24, 0x31) => self.cue(to_position([n, b, c, d])?),
            (0x40, 0x10) => self.inpoint = Point { at: self.position, on: true },
            (0x40, 0x11) => self.outpoint = Point { at: self.position, on: true },
            (0x44, 0x14) => self.inpoint = Point { at: to_position([n, b, c, d])?, on: true },
            (0x44, 0x15) => self.outpoint = Point { at: to_position([n, b, c, d])?, on: true },
            (0x40, 0x18) => self.inpoint.at = frame_on(self.inpoint.at),
            (0x40, 0x19) => self.inpoint.at = frame_back(self.inpoint.at),
            (0x40, 0x1A) => self.outpoint.at = frame_on(self.outpoint.at),
            (0x40, 0x1B) => self.outpoint.at = frame_back(self.outpoint.at),
            (0x40, 0x20) => self.inpoint.on = false,
            (0x40, 0x21) => self.outpoint.on = false,
            (0x40, 0x24) => self.inpoint.on = true,
            (0x40, 0x25) => self.outpoint.on = true,
            (0x60, 0x10) => return Some(reply::time(out, 0x10, to_time(self.inpoint.at))),
            (0x60, 0x11) => return Some(reply::time(out, 0x11, to_time(self.outpoint.at))),
            (0x61, 0x0C) => {
                return match n {
                    0x01 | 0x03 | 0x04 => Some(reply::time(out, 0x04, to_time(self.position))),
                    0x02 => Some(reply::time(out, 0x06, to_time(self.position))),
                    _ => None,
                }
            }
            (0x61, 0x20) => {
                return match n {
                    0x01..=0x0D => Some(self.tell_status(out, n)),
                    _ => None,
                }
            }
            _ => return None,
        }
        Some(reply::acknowledge(out))
    }

    /// Apart from `execute`, so that the other commands do not save registers for it.
    #[inline(never)]
    fn tell_status(&self, out: &mut Output, count: u8) -> usize {
        reply::status(out, self.status(), count)
    }

    /// With the cassette out a motion command and eject have no effect. Cue-done goes off at each but cue.
    fn motion(&mut self, mode: Mode, speed: i32) {
        if self.loaded {
            self.mode = mode;
            self.speed = speed;
            self.cue_done = false;
        }
    }

    fn step(&mut self, position: u32) {
        if self.loaded {
            self.motion(Mode::Jog, 0);
            self.position = position;
        }
    }

    fn cue(&mut self, position: u32) {
        if self.loaded {
            self.motion(Mode::Stop, 0);
            self.position = position;
            self.cue_done = true;
        }
    }

    pub fn load(&mut self) {
        if !self.loaded {
            self.loaded = true;
            self.mode = Mode::Stop;
            self.speed = 0;
        }
    }

    pub fn status(&self) -> [u8; 13] {
        let out = !self.loaded;
        let (tape, picture) = self.mode.bits();
        let mut status = [0; 13];
        status[0] = bit(5, out) | bit(0, self.local);
        status[1] = bit(7, self.standby) | bit(4, out) | tape;
        status[2] = picture | bit(2, self.speed < 0) | bit(1, picture != 0 && self.speed == 0) | bit(0, self.cue_done);
        status[3] = bit(1, self.outpoint.on) | bit(0, self.inpoint.on);
        status
    }
}
