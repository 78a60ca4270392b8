//! The plain program that `load` is measured against, and compared with: it reads a migration stream of version 1 or 2
//! whole, checks it in the order of its bytes, builds the image in memory, and writes it page by page. Its checks and
//! what it prints are those of `load`, but for the words of a fault. `docs/FORMATS.md` has the formats.
//!
//!     plain_load STREAM IMAGE             loads a stream
//!     plain_load make KIND PAGES STREAM   makes one: `pages` of page records, `zeros` of zero records, or `damaged`
//!
//! It ends with 0, with 8 where the stream is refused, with 9 where it is longer than `load` takes, and with 1 where
//! its words are others.

use std::fs::{self, File};
use std::io::{self, BufWriter, Write};
use std::process::ExitCode;

const BUFFER_BYTES: usize = 65536;
const PAGE_BYTES: usize = 4096;
const MOST_PAGES: u32 = 16_384;
const MOST_STREAM_BYTES: usize = 1_077_936_128;
const MAGIC: &[u8; 8] = b"DRSTREAM";

/// Why a stream is refused. `at` is the place of a byte, from 0.
#[derive(Debug)]
#[allow(dead_code)]
enum Fault {
    Magic,
    Version { said: u32 },
    Pages { said: u32 },
    Cut { at: usize },
    Kind { at: usize },
    Place { at: usize },
    Count { said: u32, seen: u32 },
    After { at: usize },
}

/// The number in the four bytes at a place; a cut where they aren't all there.
fn number(stream: &[u8], at: usize) -> Result<u32, Fault> {
    match stream.get(at..at + 4) {
        Some(bytes) => Ok(u32::from_le_bytes(bytes.try_into().unwrap())),
        None => Err(Fault::Cut { at: stream.len() }),
    }
}

/// The version and the number of pages.
fn header(stream: &[u8]) -> Result<(u32, u32), Fault> {
    if stream.iter().zip(MAGIC).any(|(found, wanted)| found != wanted) {
        return Err(Fault::Magic);
    }
    let version = number(stream, 8)?;
    if !(1..=2).contains(&version) {
        return Err(Fault::Version { said: version });
    }
    let pages = number(stream, 12)?;
    if !(1..=MOST_PAGES).contains(&pages) {
        return Err(Fault::Pages { said: pages });
    }
    Ok((version, pages))
}

/// The image so far, and what the next record depends on.
struct Loading {
    image: Vec<u8>,
    pages: u32,
    round: u32,
    /// The least page that may be named next in this round.
    least: u32,
    records: u32,
}

impl Loading {
    fn names(&self, page: u32) -> bool {
        self.round > 0 && page < self.pages && page >= self.least
    }

    fn take_round(&mut self, round: u32, at: usize) -> Result<usize, Fault> {
        if round > 65 || round <= self.round {
            return Err(Fault::Place { at });
        }
        self.round = round;
        self.least = 0;
        Ok(at + 8)
    }

    fn take_page(&mut self, page: u32, stream: &[u8], at: usize) -> Result<usize, Fault> {
        if !self.names(page) {
            return Err(Fault::Place { at });
        }
        let end = at + 8 + PAGE_BYTES;
        let Some(bytes) = stream.get(at + 8..end) else {
            return Err(Fault::Cut { at: stream.len() });
        };
        self.image[page as usize * PAGE_BYTES..][..PAGE_BYTES].copy_from_slice(bytes);
        self.least = page + 1;
        self.records += 1;
        Ok(end)
    }

    fn take_zeros(&mut self, first: u32, stream: &[u8], at: usize) -> Result<usize, Fault> {
        if !self.names(first) {
            return Err(Fault::Place { at });
        }
        let count = number(stream, at + 8)?;
        if count == 0 || count > self.pages - first {
            return Err(Fault::Place { at });
        }
        self.image[first as usize * PAGE_BYTES..][..count as usize * PAGE_BYTES].fill(0);
        self.least = first + count;
        self.records += 1;
        Ok(at + 12)
    }

    fn check_end(&self, said: u32, stream: &[u8], at: usize) -> Result<(), Fault> {
        if said != self.records {
            return Err(Fault::Count { said, seen: self.records });
        }
        if stream.len() > at + 8 {
            return Err(Fault::After { at: at + 8 });
        }
        Ok(())
    }
}

/// What a stream loads as, or its first fault.
fn read_stream(stream: &[u8]) -> Result<Loading, Fault> {
    let (version, pages) = header(stream)?;
    let image = vec![0; pages as usize * PAGE_BYTES];
    let mut loading = Loading { image, pages, round: 0, least: 0, records: 0 };
    let mut at = 16;
    loop {
        if stream.len() - at < 8 {
            return Err(Fault::Cut { at: stream.len() });
        }
        let (kind, said) = (number(stream, at)?, number(stream, at + 4)?);
        at = match kind {
            1 => loading.take_round(said, at)?,
            2 => loading.take_page(said, stream, at)?,
            3 => {
                loading.check_end(said, stream, at)?;
                return Ok(loading);
            }
            4 if version == 2 => loading.take_zeros(said, stream, at)?,
            _ => return Err(Fault::Kind { at }),
        };
    }
}

fn create(path: &str) -> io::Result<BufWriter<File>> {
    Ok(BufWriter::with_capacity(BUFFER_BYTES, File::create(path)?))
}

fn load(stream: &str, image: &str) -> io::Result<u8> {
    let stream = fs::read(stream)?;
    if stream.len() > MOST_STREAM_BYTES {
        eprintln!("too long");
        return Ok(9);
    }
    let loading = match read_stream(&stream) {
        Ok(loading) => loading,
        Err(fault) => {
            eprintln!("{fault:?}");
            return Ok(8);
        }
    };
    let mut image = create(image)?;
    for page in loading.image.chunks(PAGE_BYTES) {
        image.write_all(page)?;
    }
    image.flush()?;
    println!("loaded pages {} records {}", loading.pages, loading.records);
    Ok(0)
}

/// Writes a stream of one round that names each page once; a damaged one counts one record too few in its end.
fn make(kind: &str, pages: u32, path: &str) -> io::Result<()> {
    let mut out = create(path)?;
    let mut put = |number: u32| out.write_all(&number.to_le_bytes());
    put(u32::from_le_bytes(*b"DRST"))?;
    put(u32::from_le_bytes(*b"REAM"))?;
    for number in [2, pages, 1, 1] {
        put(number)?;
    }
    for page in 0..pages {
        if kind == "zeros" {
            for number in [4, page, 1] {
                put(number)?;
            }
            continue;
        }
        put(2)?;
        put(page)?;
        for at in 0..PAGE_BYTES as u32 / 4 {
            put(page.wrapping_mul(2_654_435_761) ^ at | 1)?;
        }
    }
    put(3)?;
    put(if kind == "damaged" { pages - 1 } else { pages })?;
    out.flush()
}

fn main() -> io::Result<ExitCode> {
    let words: Vec<String> = std::env::args().skip(1).collect();
    let words: Vec<&str> = words.iter().map(String::as_str).collect();
    match words[..] {
        ["make", kind @ ("pages" | "zeros" | "damaged"), pages, stream] => {
            let Ok(pages @ 1..=MOST_PAGES) = pages.parse() else {
                eprintln!("plain_load: PAGES is 1 to {MOST_PAGES}");
                return Ok(ExitCode::from(1));
            };
            make(kind, pages, stream)?;
            Ok(ExitCode::SUCCESS)
        }
        [stream, image] => Ok(ExitCode::from(load(stream, image)?)),
        _ => {
            eprintln!("usage: plain_load STREAM IMAGE, or plain_load make pages|zeros|damaged PAGES STREAM");
            Ok(ExitCode::from(1))
        }
    }
}
