//! The guest, as a valid guest file says it.

use crate::texts::put_words;
use std::io::{self, Write};

pub const PAGE_BYTES: usize = 4096;

/// An operation. `page` is the number of the page in which its address lies. A store without a value stores
/// the register. A `nap` is an addition of 0, since the clock stands.
#[derive(Clone, Copy)]
pub enum Op {
    Store { addr: u64, page: u32, len: u8, value: Option<u64> },
    Paint { page: u32, byte: u8 },
    Load { addr: u64, page: u32 },
    Add { n: u64 },
    Halt,
}

/// So many guest frames from `base` on, of which the first is the page with the number `first`.
struct Slot {
    base: u64,
    pages: u64,
    first: u32,
}

/// A guest, with its canonical text and with each script written out.
#[derive(Default)]
pub struct Guest {
    pub text: Vec<u8>,
    pub ring: u64,
    pub reserve: u64,
    pub buffer: u64,
    pub pace: u64,
    pub threshold: u64,
    pub rounds: u64,
    pub quota: u64,
    pub pages: usize,
    slots: Vec<Slot>,
    /// How often the last `rep` goes over its body, and how many ops stand before that.
    repetition: (usize, usize),
    pub scripts: Vec<Vec<Op>>,
}

fn decimal(word: &[u8]) -> u64 {
    word.iter().fold(0, |n, &b| n * 10 + u64::from(b - b'0'))
}

/// The bytes that a hex word says, as a number whose least byte is the first of them.
fn hex(word: &[u8]) -> u64 {
    let digit = |b: u8| u64::from((b as char).to_digit(16).unwrap_or(0));
    word.rchunks(2).fold(0, |n, pair| n << 8 | digit(pair[0]) << 4 | digit(pair[1]))
}

impl Guest {
    pub fn read(text: &[u8]) -> io::Result<Guest> {
        let mut guest = Guest::default();
        for line in text.split(|&b| b == b'\n') {
            let line = line.strip_suffix(b"\r").unwrap_or(line);
            let mut words = line.split(|&b| b == b' ' || b == b'\t').filter(|word| !word.is_empty());
            let word = match words.next() {
                Some(word) if word[0] != b'#' => std::str::from_utf8(word).unwrap_or(""),
                _ => continue,
            };
            let rest: Vec<&[u8]> = words.collect();
            guest.write_line(word, &rest)?;
            guest.take_line(word, &rest);
        }
        Ok(guest)
    }

    /// Adds a line to the canonical text.
    fn write_line(&mut self, word: &str, rest: &[&[u8]]) -> io::Result<()> {
        let text = &mut self.text;
        put_words(text, word, &[])?;
        for (at, part) in rest.iter().enumerate() {
            if at == 1 && (word == "w" || word == "f") {
                text.push(b' ');
                text.extend(part.iter().map(u8::to_ascii_lowercase));
            } else {
                put_words(text, "", &[decimal(part)])?;
            }
        }
        text.write_all(b"\n")
    }

    /// Takes what a line says.
    fn take_line(&mut self, word: &str, rest: &[&[u8]]) {
        let number = |at: usize| rest.get(at).map_or(0, |word| decimal(word));
        match word {
            "dirtyguest" => {}
            "ring" => self.ring = number(0),
            "reserve" => self.reserve = number(0),
            "buffer" => self.buffer = number(0),
            "pace" => self.pace = number(0),
            "threshold" => self.threshold = number(0),
            "rounds" => self.rounds = number(0),
            "quota" => self.quota = number(0),
            "slot" => {
                self.slots.push(Slot { base: number(1), pages: number(2), first: self.pages as u32 });
                self.pages += number(2) as usize;
            }
            "vcpu" => self.scripts.push(Vec::new()),
            "rep" => self.repetition = (number(0) as usize, self.ops().len()),
            "end" => {
                let (times, from) = self.repetition;
                let ops = self.ops();
                let to = ops.len();
                for _ in 1..times {
                    ops.extend_from_within(from..to);
                }
            }
            _ => {
                let op = self.op(word, number(0), rest);
                self.ops().push(op);
            }
        }
    }

    /// The ops so far of the last vCPU.
    fn ops(&mut self) -> &mut Vec<Op> {
        self.scripts.last_mut().expect("a line `vcpu` comes first")
    }

    fn op(&self, word: &str, number: u64, rest: &[&[u8]]) -> Op {
        let page = || self.page_of(number / PAGE_BYTES as u64);
        match word {
            "w" => {
                let len = (rest[1].len() / 2) as u8;
                Op::Store { addr: number, page: page(), len, value: Some(hex(rest[1])) }
            }
            "f" => Op::Paint { page: self.page_of(number), byte: hex(rest[1]) as u8 },
            "r" => Op::Load { addr: number, page: page() },
            "a" => Op::Add { n: number },
            "s" => Op::Store { addr: number, page: page(), len: 8, value: None },
            "nap" => Op::Add { n: 0 },
            _ => Op::Halt,
        }
    }

    /// The page of a guest frame, where a slot has it.
    pub fn page_at(&self, frame: u64) -> Option<u32> {
        let within = |slot: &&Slot| slot.base <= frame && frame - slot.base < slot.pages;
        self.slots.iter().find(within).map(|slot| slot.first + (frame - slot.base) as u32)
    }

    /// The page of a guest frame that is in a slot.
    fn page_of(&self, frame: u64) -> u32 {
        self.page_at(frame).unwrap_or(0)
    }

    /// A ring is soft full from so many entries on.
    pub fn soft(&self) -> u64 {
        self.ring - self.reserve - self.buffer
    }
}
