//! Times are frames, seconds, minutes, hours, one BCD byte each, at 25 frames.

/// How many positions there are.
pub const DAY: u32 = 24 * 60 * 60 * 25;

fn bcd(number: u32) -> u8 {
    (number + number / 10 * 6) as u8
}

fn from_bcd(byte: u8, below: u32) -> Option<u32> {
    let (tens, ones) = (byte >> 4, byte & 15);
    let number = tens as u32 * 10 + ones as u32;
    // Ten or more tens are too many for every part of a time.
    (ones < 10 && number < below).then_some(number)
}

pub fn to_time(position: u32) -> [u8; 4] {
    let seconds = position / 25;
    let minutes = seconds / 60;
    [bcd(position % 25), bcd(seconds % 60), bcd(minutes % 60), bcd(minutes / 60)]
}

pub fn to_position([frames, seconds, minutes, hours]: [u8; 4]) -> Option<u32> {
    let frames = from_bcd(frames, 25)?;
    let seconds = from_bcd(seconds, 60)?;
    let minutes = from_bcd(minutes, 60)?;
    let hours = from_bcd(hours, 24)?;
    Some(((hours * 60 + minutes) * 60 + seconds) * 25 + frames)
}

pub fn frame_on(position: u32) -> u32 {
    if position == DAY - 1 { 0 } else { position + 1 }
}

pub fn frame_back(position: u32) -> u32 {
    if position == 0 { DAY - 1 } else { position - 1 }
}
