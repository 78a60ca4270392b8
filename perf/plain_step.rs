//! The plain program that `step` is measured against, and compared with: it reads a guest file, carries the
//! whole migration out, and writes the stream, the image, the report and the journal, byte for byte as `step`
//! does. It takes the guest file for a valid one; its clock stands at 0. `docs/FORMATS.md` has the formats.
//!
//!     plain_step GUEST STREAM IMAGE REPORT JOURNAL
//!
//! It ends with 0 where the guest switched over, and with 3 where the rounds were spent.

#[path = "plain_step/guest.rs"]
mod guest;
#[path = "plain_step/texts.rs"]
mod texts;

use guest::{Guest, Op, PAGE_BYTES};
use std::fs::{self, File};
use std::io::{self, BufWriter, Write};
use std::ops::Range;
use std::process::ExitCode;
use texts::Event;

const BUFFER_BYTES: usize = 65536;

/// A vCPU and its ring. The entry with number k is that of the page `entries[k]`; the first `pushed` entries
/// came into the ring, the first `deposited` were harvested, and the first `reset` are cleared.
#[derive(Default)]
struct Vcpu {
    script: Vec<Op>,
    /// The ops executed, and those since the last round was asked.
    ops: usize,
    recent: u64,
    register: u64,
    is_inside: bool,
    is_kicked: bool,
    has_halted: bool,
    entries: Vec<u32>,
    pushed: usize,
    deposited: usize,
    reset: usize,
    /// The entries pushed since the last answer.
    span: u64,
    throttle: u64,
    peak: u64,
    full_exits: u64,
    kicked_exits: u64,
}

impl Vcpu {
    fn used(&self) -> u64 {
        (self.pushed - self.reset) as u64
    }

    /// Decides the vCPU's throttle at an answer that found this rate.
    fn decide_throttle(&mut self, quota: u64, rate: u64, ring: u64) {
        let (low, high) = (quota.min(rate), quota.max(rate));
        if high - low <= 25_600 {
            return;
        }
        if rate == 0 {
            self.throttle = 0;
            return;
        }
        self.peak = self.peak.max(rate);
        let time = ring * 4_000_000 / self.peak;
        let percent = (high - low) * 100 / high;
        let step = if percent > 50 { time * percent / (100 - percent) } else { time / 10 };
        let throttle = if quota < rate { self.throttle + step } else { self.throttle.saturating_sub(step) };
        self.throttle = throttle.min(99 * time);
    }
}

/// What the report says of an answer: of each vCPU its entries, their rate and its throttle.
struct Answer {
    dirty: usize,
    copied: usize,
    shares: Vec<[u64; 3]>,
}

struct Migration {
    guest: Guest,
    vcpus: Vec<Vcpu>,
    memory: Vec<u8>,
    has_started: bool,
    has_stopped: bool,
    /// Of each page: it may be written; it was reset since the last flush; it is to be copied.
    writable: Vec<bool>,
    is_closing: Vec<bool>,
    dirty: Vec<bool>,
    closing: Vec<u32>,
    /// One more than the flushes so far, and for each vCPU and page what it was when that was cached last.
    epoch: u32,
    cached: Vec<u32>,
    events: Vec<Event>,
    answers: Vec<Answer>,
    stream: BufWriter<File>,
    /// How many records of pages the stream has.
    records: u32,
}

impl Migration {
    fn new(mut guest: Guest, stream: BufWriter<File>) -> Migration {
        let pages = guest.pages;
        let scripts = std::mem::take(&mut guest.scripts);
        let vcpus: Vec<Vcpu> = scripts.into_iter().map(|script| Vcpu { script, ..Vcpu::default() }).collect();
        Migration {
            memory: vec![0; pages * PAGE_BYTES],
            has_started: false,
            has_stopped: false,
            writable: vec![false; pages],
            is_closing: vec![false; pages],
            dirty: vec![false; pages],
            closing: Vec::new(),
            epoch: 1,
            cached: vec![0; pages * vcpus.len()],
            events: Vec::new(),
            answers: Vec::new(),
            stream,
            records: 0,
            guest,
            vcpus,
        }
    }

    /// The whole migration. Tells whether the guest switched over; otherwise the rounds were spent.
    fn run(&mut self) -> io::Result<bool> {
        self.pace_all();
        self.has_started = true;
        self.dirty.fill(true);
        self.events.push(Event::Start);
        self.stream.write_all(b"DRSTREAM")?;
        self.put_record(2, self.guest.pages as u32)?;
        let mut r = 1;
        while self.synchronise(r)? as u64 > self.guest.threshold {
            if u64::from(r) == self.guest.rounds {
                return Ok(false);
            }
            self.pace_all();
            r += 1;
        }
        self.has_stopped = true;
        self.events.push(Event::Stopped);
        self.synchronise(r + 1)?;
        self.events.push(Event::Switched);
        self.put_record(3, self.records)?;
        Ok(true)
    }

    /// Puts two numbers into the stream.
    fn put_record(&mut self, kind: u32, number: u32) -> io::Result<()> {
        self.stream.write_all(&kind.to_le_bytes())?;
        self.stream.write_all(&number.to_le_bytes())
    }

    /// Each vCPU executes until it is paced.
    fn pace_all(&mut self) {
        for v in 0..self.vcpus.len() {
            while self.vcpus[v].recent < self.guest.pace && !self.vcpus[v].has_halted {
                if self.vcpus[v].used() < self.guest.soft() {
                    self.execute(v);
                } else {
                    self.exit(v);
                    let all = self.guest.quota == 0;
                    self.reap(if all { 0..self.vcpus.len() } else { v..v + 1 });
                }
            }
        }
    }

    /// A vCPU executes its next op. Where that is its last, it leaves the guest.
    fn execute(&mut self, v: usize) {
        let vcpu = &mut self.vcpus[v];
        let (id, i) = (v as u32, vcpu.ops as u32);
        let op = vcpu.script[vcpu.ops];
        vcpu.ops += 1;
        vcpu.recent += 1;
        vcpu.is_inside = true;
        match op {
            Op::Store { addr, page, len, value } => {
                let value = value.unwrap_or(vcpu.register);
                self.permit(v, page);
                self.events.push(Event::Write { v: id, i, addr, len, value });
                let (at, len) = (place(addr, page), usize::from(len));
                self.memory[at..at + len].copy_from_slice(&value.to_le_bytes()[..len]);
            }
            Op::Paint { page, byte } => {
                self.permit(v, page);
                self.events.push(Event::Paint { v: id, i, page, byte });
                let at = page as usize * PAGE_BYTES;
                self.memory[at..at + PAGE_BYTES].fill(byte);
            }
            Op::Load { addr, page } => {
                let at = place(addr, page);
                let mut bytes = [0; 8];
                bytes.copy_from_slice(&self.memory[at..at + 8]);
                let value = u64::from_le_bytes(bytes);
                vcpu.register = value;
                self.events.push(Event::Read { v: id, i, addr, value });
            }
            Op::Add { n } => {
                vcpu.register = vcpu.register.wrapping_add(n);
                self.events.push(Event::Local { v: id, i });
            }
            Op::Halt => {
                vcpu.has_halted = true;
                self.events.push(Event::Halted { v: id, i });
                self.exit(v);
            }
        }
        let waiting = self.vcpus[v].entries.len() - self.vcpus[v].pushed;
        if waiting as u64 >= self.guest.buffer.max(1) {
            self.push(v);
        }
    }

    /// Gives a vCPU the permission to write a page, and opens an entry where the page is protected.
    fn permit(&mut self, v: usize, page: u32) {
        let at = page as usize;
        let cached = &mut self.cached[v * self.guest.pages + at];
        if !self.has_started || *cached == self.epoch {
            return;
        }
        *cached = self.epoch;
        if self.writable[at] {
            self.events.push(Event::Filled { v: v as u32, page });
        } else {
            self.writable[at] = true;
            let entries = &mut self.vcpus[v].entries;
            self.events.push(Event::Opened { v: v as u32, k: entries.len() as u32, page });
            entries.push(page);
        }
    }

    /// A vCPU's waiting entries come into its ring.
    fn push(&mut self, v: usize) {
        let vcpu = &mut self.vcpus[v];
        for k in vcpu.pushed..vcpu.entries.len() {
            self.events.push(Event::Pushed { v: v as u32, k: k as u32 });
            vcpu.span += 1;
        }
        vcpu.pushed = vcpu.entries.len();
    }

    /// A vCPU leaves the guest, where it is in it.
    fn exit(&mut self, v: usize) {
        if !self.vcpus[v].is_inside {
            return;
        }
        self.push(v);
        let soft = self.guest.soft();
        let vcpu = &mut self.vcpus[v];
        let why = if vcpu.has_halted {
            "halted"
        } else if self.has_stopped {
            "stopped"
        } else if vcpu.is_kicked {
            "kicked"
        } else if vcpu.used() >= soft {
            "full"
        } else {
            "yield"
        };
        vcpu.is_inside = false;
        vcpu.is_kicked = false;
        vcpu.full_exits += u64::from(why == "full");
        vcpu.kicked_exits += u64::from(why == "kicked");
        self.events.push(Event::Exited { v: v as u32, why });
    }

    /// The rings of these vCPUs are harvested, all that is deposited is reset, and a flush follows.
    fn reap(&mut self, vcpus: Range<usize>) {
        for v in vcpus {
            let Vcpu { pushed, deposited, .. } = self.vcpus[v];
            if deposited < pushed {
                self.events.push(Event::Deposited { v: v as u32, from: deposited as u32, to: pushed as u32 });
                self.vcpus[v].deposited = pushed;
            }
        }
        for (v, vcpu) in self.vcpus.iter_mut().enumerate() {
            for k in vcpu.reset..vcpu.deposited {
                let page = vcpu.entries[k];
                self.events.push(Event::Reset { v: v as u32, k: k as u32 });
                self.writable[page as usize] = false;
                if !std::mem::replace(&mut self.is_closing[page as usize], true) {
                    self.closing.push(page);
                }
            }
            vcpu.reset = vcpu.deposited;
        }
        if !self.closing.is_empty() {
            self.flush();
        }
    }

    /// All cached permissions are dropped, and what was closing is dirty.
    fn flush(&mut self) {
        self.events.push(Event::Flushed);
        self.epoch += 1;
        for page in self.closing.drain(..) {
            self.is_closing[page as usize] = false;
            self.dirty[page as usize] = true;
        }
    }

    /// A round is asked and answered, and copied where its answer opens it. Answers the number of its pages.
    fn synchronise(&mut self, r: u32) -> io::Result<usize> {
        self.events.push(Event::Asked { r });
        for vcpu in &mut self.vcpus {
            vcpu.recent = 0;
            vcpu.is_kicked = vcpu.is_inside;
        }
        for v in 0..self.vcpus.len() {
            self.exit(v);
        }
        if self.vcpus.iter().any(|vcpu| vcpu.reset < vcpu.entries.len()) {
            self.reap(0..self.vcpus.len());
        }
        let all = 0..self.guest.pages as u32;
        let pages: Vec<u32> = all.filter(|&page| self.dirty[page as usize]).collect();
        let opens = self.has_stopped || pages.len() as u64 > self.guest.threshold;
        self.events.push(Event::Synced { r, pages: pages.clone().into_boxed_slice() });
        self.answer(pages.len(), if opens { pages.len() } else { 0 });
        if opens {
            self.put_record(1, r)?;
            self.copy(r, &pages)?;
        }
        Ok(pages.len())
    }

    /// Decides the throttles where there are any, and keeps what the report says of the answer.
    fn answer(&mut self, dirty: usize, copied: usize) {
        let mut shares = Vec::with_capacity(self.vcpus.len());
        for (v, vcpu) in self.vcpus.iter_mut().enumerate() {
            let entries = std::mem::take(&mut vcpu.span);
            let rate = entries * 4 * 1_000_000;
            if self.guest.quota >= 1 && !self.has_stopped {
                vcpu.decide_throttle(self.guest.quota, rate, self.guest.ring);
                self.events.push(Event::Throttled { v: v as u32, us: vcpu.throttle });
            }
            shares.push([entries, rate, vcpu.throttle]);
        }
        self.answers.push(Answer { dirty, copied, shares });
    }

    /// The bytes of a page.
    fn page(&self, page: u32) -> &[u8] {
        let at = page as usize * PAGE_BYTES;
        &self.memory[at..at + PAGE_BYTES]
    }

    /// How many of these pages, from the first on, are zero and rise by one.
    fn zeros(&self, pages: &[u32]) -> usize {
        let is_next = |(i, &page): (usize, &u32)| page == pages[0] + i as u32 && self.page(page) == [0; PAGE_BYTES];
        pages.iter().enumerate().take_while(|&it| is_next(it)).count()
    }

    /// The pages of a round are copied into the stream, pages of zeros together.
    fn copy(&mut self, r: u32, pages: &[u32]) -> io::Result<()> {
        let mut left = pages;
        while let Some(&first) = left.first() {
            let zeros = self.zeros(left);
            let (copied, rest) = left.split_at(zeros.max(1));
            for &page in copied {
                self.events.push(Event::Copied { r, page });
                self.dirty[page as usize] = false;
            }
            self.put_record(if zeros > 0 { 4 } else { 2 }, first)?;
            if zeros > 0 {
                self.stream.write_all(&(zeros as u32).to_le_bytes())?;
            } else {
                let at = first as usize * PAGE_BYTES;
                self.stream.write_all(&self.memory[at..at + PAGE_BYTES])?;
            }
            self.records += 1;
            left = rest;
        }
        Ok(())
    }

    fn put_report(&self, report: &mut impl Write, has_switched: bool) -> io::Result<()> {
        let Guest { pages, ring, .. } = self.guest;
        let soft = self.guest.soft();
        writeln!(report, "guest pages {pages} vcpus {} ring {ring} soft {soft}", self.vcpus.len())?;
        for (r, answer) in self.answers.iter().enumerate() {
            writeln!(report, "round {} dirty {} copied {} at 0", r + 1, answer.dirty, answer.copied)?;
            for (v, [entries, rate, throttle]) in answer.shares.iter().enumerate() {
                writeln!(report, "  vcpu {v} entries {entries} rate {rate} throttle {throttle}")?;
            }
        }
        for (v, Vcpu { ops, full_exits, kicked_exits, .. }) in self.vcpus.iter().enumerate() {
            writeln!(report, "vcpu {v} ops {ops} full {full_exits} kicked {kicked_exits}")?;
        }
        writeln!(report, "{}", if has_switched { "switched" } else { "unfinished" })
    }

    fn put_journal(&self, journal: &mut impl Write) -> io::Result<()> {
        journal.write_all(&self.guest.text)?;
        journal.write_all(b"journal\n")?;
        for event in &self.events {
            event.put(journal)?;
        }
        journal.write_all(b"end\n")
    }
}

/// Where the bytes of an address lie in memory.
fn place(addr: u64, page: u32) -> usize {
    page as usize * PAGE_BYTES + addr as usize % PAGE_BYTES
}

fn create(path: &str) -> io::Result<BufWriter<File>> {
    Ok(BufWriter::with_capacity(BUFFER_BYTES, File::create(path)?))
}

/// Migrates the guest of a file, and tells whether it switched over.
fn migrate(guest: &str, [stream, image, report, journal]: [&str; 4]) -> io::Result<bool> {
    let guest = Guest::read(&fs::read(guest)?)?;
    let (mut image, mut report, mut journal) = (create(image)?, create(report)?, create(journal)?);
    let mut migration = Migration::new(guest, create(stream)?);
    let has_switched = migration.run()?;
    migration.stream.flush()?;
    if has_switched {
        for piece in migration.memory.chunks(BUFFER_BYTES) {
            image.write_all(piece)?;
        }
    }
    migration.put_report(&mut report, has_switched)?;
    migration.put_journal(&mut journal)?;
    image.flush()?;
    report.flush()?;
    journal.flush()?;
    Ok(has_switched)
}

fn main() -> io::Result<ExitCode> {
    let words: Vec<String> = std::env::args().skip(1).collect();
    let [guest, stream, image, report, journal] = words.as_slice() else {
        eprintln!("usage: plain_step GUEST STREAM IMAGE REPORT JOURNAL");
        return Ok(ExitCode::from(1));
    };
    let has_switched = migrate(guest, [stream, image, report, journal])?;
    Ok(ExitCode::from(if has_switched { 0 } else { 3 }))
}
