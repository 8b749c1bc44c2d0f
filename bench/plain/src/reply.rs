//! Replies, written to the front of the lent output. What is behind them there stays as it is.

/// The length of the longest block, and so the least room for a reply.
pub const LONGEST: usize = 18;

pub type Output = [u8; LONGEST];

/// Writes the bytes, and returns how many they are.
fn put<const N: usize>(out: &mut [u8], bytes: [u8; N]) -> usize {
    out[..N].copy_from_slice(&bytes);
    N
}

fn sum(bytes: &[u8]) -> u8 {
    bytes.iter().fold(0, |sum: u8, byte| sum.wrapping_add(*byte))
}

pub fn acknowledge(out: &mut Output) -> usize {
    put(out, [0x10, 0x01, 0x11])
}

pub fn nak(out: &mut [u8], bits: u8) -> usize {
    put(out, [0x11, 0x12, bits, 0x23 + bits])
}

pub fn device_type(out: &mut Output) -> usize {
    put(out, [0x12, 0x11, 0x00, 0x02, 0x25])
}

pub fn time(out: &mut Output, command: u8, time: [u8; 4]) -> usize {
    let [frames, seconds, minutes, hours] = time;
    put(out, [0x74, command, frames, seconds, minutes, hours, sum(&time).wrapping_add(0x74 + command)])
}

/// As many of the status bytes as asked for.
pub fn status(out: &mut Output, status: [u8; 13], count: u8) -> usize {
    let data = &status[..count as usize];
    let end = 2 + data.len();
    out[0] = 0x70 | count;
    out[1] = 0x20;
    out[2..end].copy_from_slice(data);
    out[end] = sum(&out[..end]);
    end + 1
}
