//! The lines of texts, and the events of a history as lines of the journal.

use std::io::{self, Write};

/// What happened. Each time is 0; `why` is the word of the journal.
pub enum Event {
    Start,
    Read { v: u32, i: u32, addr: u64, value: u64 },
    Write { v: u32, i: u32, addr: u64, len: u8, value: u64 },
    Paint { v: u32, i: u32, page: u32, byte: u8 },
    Local { v: u32, i: u32 },
    Halted { v: u32, i: u32 },
    Opened { v: u32, k: u32, page: u32 },
    Filled { v: u32, page: u32 },
    Pushed { v: u32, k: u32 },
    Exited { v: u32, why: &'static str },
    Deposited { v: u32, from: u32, to: u32 },
    Reset { v: u32, k: u32 },
    Flushed,
    Asked { r: u32 },
    Synced { r: u32, pages: Box<[u32]> },
    Copied { r: u32, page: u32 },
    Throttled { v: u32, us: u64 },
    Stopped,
    Switched,
}

/// Writes a number in decimal.
fn put_decimal(out: &mut impl Write, number: u64) -> io::Result<()> {
    let mut digits = [0; 20];
    let mut at = digits.len();
    let mut rest = number;
    loop {
        at -= 1;
        digits[at] = b'0' + (rest % 10) as u8;
        rest /= 10;
        if rest == 0 {
            return out.write_all(&digits[at..]);
        }
    }
}

/// Writes a word, and numbers with a space before each.
pub fn put_words(out: &mut impl Write, word: &str, numbers: &[u64]) -> io::Result<()> {
    out.write_all(word.as_bytes())?;
    for &number in numbers {
        out.write_all(b" ")?;
        put_decimal(out, number)?;
    }
    Ok(())
}

/// Writes a line of a word and numbers.
fn put_line(out: &mut impl Write, word: &str, numbers: &[u64]) -> io::Result<()> {
    put_words(out, word, numbers)?;
    out.write_all(b"\n")
}

/// Writes a line of a word, numbers, and bytes in hex.
fn put_hex_line(out: &mut impl Write, word: &str, numbers: &[u64], bytes: &[u8]) -> io::Result<()> {
    const DIGITS: &[u8; 16] = b"0123456789abcdef";
    put_words(out, word, numbers)?;
    out.write_all(b" ")?;
    for byte in bytes {
        out.write_all(&[DIGITS[usize::from(byte >> 4)], DIGITS[usize::from(byte & 15)]])?;
    }
    out.write_all(b"\n")
}

impl Event {
    /// Writes the event's line.
    pub fn put(&self, out: &mut impl Write) -> io::Result<()> {
        let n = u64::from;
        match *self {
            Event::Start => put_line(out, "start", &[0]),
            Event::Read { v, i, addr, value } => put_line(out, "r", &[n(v), n(i), addr, value]),
            Event::Write { v, i, addr, len, value } => {
                let bytes = value.to_le_bytes();
                put_hex_line(out, "w", &[n(v), n(i), addr], &bytes[..usize::from(len)])
            }
            Event::Paint { v, i, page, byte } => put_hex_line(out, "f", &[n(v), n(i), n(page)], &[byte]),
            Event::Local { v, i } => put_line(out, "l", &[n(v), n(i)]),
            Event::Halted { v, i } => put_line(out, "h", &[n(v), n(i)]),
            Event::Opened { v, k, page } => put_line(out, "o", &[n(v), n(k), n(page)]),
            Event::Filled { v, page } => put_line(out, "c", &[n(v), n(page)]),
            Event::Pushed { v, k } => put_line(out, "p", &[n(v), n(k)]),
            Event::Exited { v, why } => {
                put_words(out, "x", &[n(v)])?;
                writeln!(out, " {why}")
            }
            Event::Deposited { v, from, to } => put_line(out, "d", &[n(v), n(from), n(to)]),
            Event::Reset { v, k } => put_line(out, "z", &[n(v), n(k)]),
            Event::Flushed => put_line(out, "flush", &[]),
            Event::Asked { r } => put_line(out, "ask", &[n(r)]),
            Event::Synced { r, ref pages } => {
                put_words(out, "sync", &[n(r), 0, pages.len() as u64])?;
                for &page in pages {
                    put_words(out, "", &[n(page)])?;
                }
                out.write_all(b"\n")
            }
            Event::Copied { r, page } => put_line(out, "copy", &[n(r), n(page)]),
            Event::Throttled { v, us } => put_line(out, "t", &[n(v), us]),
            Event::Stopped => put_line(out, "stop", &[]),
            Event::Switched => put_line(out, "switched", &[]),
        }
    }
}
