//! A plain judge of what a run left: it reads a journal and judges its events by the 26 rules, as
//! `docs/FORMATS.md` has them and by nothing else; then it compares the stream and the image with
//! what these events say. It takes the guest's text in the journal for that of a valid guest.
//!
//!     plain_judge JOURNAL STREAM IMAGE
//!
//! It prints one line, and ends with 0 where all is as it has to be, and else with 1.

// Both are shared with `plain_step`, which needs more of them.
#[allow(dead_code)]
#[path = "plain_step/guest.rs"]
mod guest;
#[allow(dead_code)]
#[path = "plain_step/texts.rs"]
mod texts;

use guest::{Guest, Op, PAGE_BYTES};
use std::process::ExitCode;
use std::{env, fs};

/// An event, as its line says it.
#[derive(Clone)]
enum Event {
    Start { at: u64 },
    Read { v: usize, i: usize, addr: u64, value: u64 },
    Write { v: usize, i: usize, addr: u64, bytes: Vec<u8> },
    Paint { v: usize, i: usize, page: usize, byte: u8 },
    Local { v: usize, i: usize },
    Halted { v: usize, i: usize },
    Opened { v: usize, k: usize, page: usize },
    Filled { v: usize, page: usize },
    Pushed { v: usize, k: usize },
    Exited { v: usize, why: String },
    Deposited { v: usize, from: usize, to: usize },
    Reset { v: usize, k: usize },
    Flushed,
    Asked { r: u64 },
    Synced { r: u64, at: u64, pages: Vec<usize> },
    Copied { r: u64, page: usize },
    Throttled { v: usize, us: u64 },
    Stopped,
    Switched,
}

use Event::*;

impl Event {
    fn read(line: &str) -> Option<Event> {
        let words: Vec<&str> = line.split(' ').collect();
        let number = |at: usize| words.get(at)?.parse::<u64>().ok();
        let index = |at: usize| number(at).map(|n| n as usize);
        let bytes = |at: usize| {
            let word = words.get(at)?;
            let byte = |i| u8::from_str_radix(word.get(i..i + 2)?, 16).ok();
            (0..word.len()).step_by(2).map(byte).collect::<Option<Vec<u8>>>()
        };
        Some(match words[0] {
            "start" => Start { at: number(1)? },
            "r" => Read { v: index(1)?, i: index(2)?, addr: number(3)?, value: number(4)? },
            "w" => Write { v: index(1)?, i: index(2)?, addr: number(3)?, bytes: bytes(4)? },
            "f" => {
                Paint { v: index(1)?, i: index(2)?, page: index(3)?, byte: *bytes(4)?.first()? }
            }
            "l" => Local { v: index(1)?, i: index(2)? },
            "h" => Halted { v: index(1)?, i: index(2)? },
            "o" => Opened { v: index(1)?, k: index(2)?, page: index(3)? },
            "c" => Filled { v: index(1)?, page: index(2)? },
            "p" => Pushed { v: index(1)?, k: index(2)? },
            "x" => Exited { v: index(1)?, why: words.get(2)?.to_string() },
            "d" => Deposited { v: index(1)?, from: index(2)?, to: index(3)? },
            "z" => Reset { v: index(1)?, k: index(2)? },
            "flush" => Flushed,
            "ask" => Asked { r: number(1)? },
            "sync" => {
                let pages: Vec<usize> = (4..words.len()).map(index).collect::<Option<_>>()?;
                if pages.len() != index(3)? {
                    return None;
                }
                Synced { r: number(1)?, at: number(2)?, pages }
            }
            "copy" => Copied { r: number(1)?, page: index(2)? },
            "t" => Throttled { v: index(1)?, us: number(2)? },
            "stop" => Stopped,
            "switched" => Switched,
            _ => return None,
        })
    }

    /// The vCPU of an op, and its number.
    fn op(&self) -> Option<(usize, usize)> {
        match *self {
            Read { v, i, .. } | Write { v, i, .. } | Paint { v, i, .. } | Local { v, i } | Halted { v, i } => {
                Some((v, i))
            }
            _ => None,
        }
    }
}

#[derive(Default)]
struct Vcpu {
    ops: usize,
    /// Ops since the last round was asked, and since the beginning where none was.
    recent: u64,
    register: u64,
    is_inside: bool,
    is_kicked: bool,
    has_halted: bool,
    /// The page of each entry that was opened, and whether it was deposited.
    entries: Vec<usize>,
    deposited: Vec<bool>,
    pushed: usize,
    reset: usize,
    /// How many entries were opened when the last round was asked.
    opened_at_ask: usize,
    /// Entries pushed since the last answer.
    span: u64,
    throttle: u64,
    peak: u64,
}

impl Vcpu {
    fn used(&self) -> u64 {
        (self.pushed - self.reset) as u64
    }

    fn decide_throttle(&mut self, quota: u64, rate: u64, ring: u64) {
        let (low, high) = (quota.min(rate), quota.max(rate));
        if high - low <= 25_600 {
            return;
        }
        if rate == 0 {
            self.throttle = 0;
            return;
        }
        self.peak = self.peak.max(rate);
        let fill = ring * 4_000_000 / self.peak;
        let percent = (high - low) * 100 / high;
        let stride = if percent > 50 { fill * percent / (100 - percent) } else { fill / 10 };
        let next = if quota < rate { self.throttle + stride } else { self.throttle.saturating_sub(stride) };
        self.throttle = next.min(99 * fill);
    }
}

/// The last answer: its round, its time and its pages, how many of them are copied, and whether it opens a round.
struct Answer {
    r: u64,
    pages: Vec<usize>,
    copied: usize,
    opens: bool,
}

struct Judge {
    guest: Guest,
    vcpus: Vec<Vcpu>,
    memory: Vec<u8>,
    has_started: bool,
    has_stopped: bool,
    has_switched: bool,
    writable: Vec<bool>,
    closing: Vec<bool>,
    dirty: Vec<bool>,
    /// For each vCPU and page the flush, counted from 1, since which the page is cached.
    cached: Vec<u64>,
    epoch: u64,
    asks: u64,
    is_asked: bool,
    is_asked_since_stop: bool,
    last_time: u64,
    answer: Option<Answer>,
    /// The vCPU and page whose write is owed.
    owed: Option<(usize, usize)>,
    /// The vCPU whose entry was opened directly before.
    just_opened: Option<usize>,
    /// The vCPU whose throttle is due.
    due: Option<usize>,
    /// How many records of pages the stream has.
    records: u32,
    /// The round and the page that would go on the record of zeros that was begun last, where the last event was a
    /// copy that is in it.
    zeros: Option<(u64, usize)>,
    stream: Vec<u8>,
}

impl Judge {
    fn new(guest: Guest) -> Judge {
        let pages = guest.pages;
        let vcpus: Vec<Vcpu> = guest.scripts.iter().map(|_| Vcpu::default()).collect();
        Judge {
            memory: vec![0; pages * PAGE_BYTES],
            has_started: false,
            has_stopped: false,
            has_switched: false,
            writable: vec![false; pages],
            closing: vec![false; pages],
            dirty: vec![false; pages],
            cached: vec![0; pages * vcpus.len()],
            epoch: 1,
            asks: 0,
            is_asked: false,
            is_asked_since_stop: false,
            last_time: 0,
            answer: None,
            owed: None,
            just_opened: None,
            due: None,
            records: 0,
            zeros: None,
            stream: Vec::new(),
            guest,
            vcpus,
        }
    }

    /// The page of these bytes, where they lie in one page of a slot, and their place in memory.
    fn place(&self, addr: u64, len: usize) -> Option<(usize, usize)> {
        let within = addr as usize % PAGE_BYTES;
        let page = self.guest.page_at(addr / PAGE_BYTES as u64)? as usize;
        (within + len <= PAGE_BYTES).then_some((page, page * PAGE_BYTES + within))
    }

    fn is_cached(&self, v: usize, page: usize) -> bool {
        self.cached[v * self.guest.pages + page] == self.epoch
    }

    fn is_writable(&self, page: usize) -> bool {
        !self.has_started || self.writable[page]
    }

    fn is_paced(&self, vcpu: &Vcpu) -> bool {
        vcpu.has_halted || vcpu.recent >= self.guest.pace
    }

    /// The page that an op writes.
    fn written(&self, event: &Event) -> Option<usize> {
        match event {
            Write { addr, bytes, .. } => self.place(*addr, bytes.len()).map(|(page, _)| page),
            Paint { page, .. } => Some(*page),
            _ => None,
        }
    }

    fn names_exist(&self, event: &Event) -> bool {
        let page_is = |page: usize| page < self.guest.pages;
        let vcpu_is = |v: usize| v < self.vcpus.len();
        match event {
            Read { v, addr, .. } => vcpu_is(*v) && self.place(*addr, 8).is_some(),
            Write { v, addr, bytes, .. } => vcpu_is(*v) && self.place(*addr, bytes.len()).is_some(),
            Paint { v, page, .. } | Opened { v, page, .. } | Filled { v, page } => vcpu_is(*v) && page_is(*page),
            Local { v, .. } | Halted { v, .. } | Pushed { v, .. } | Exited { v, .. } => vcpu_is(*v),
            Deposited { v, .. } | Reset { v, .. } | Throttled { v, .. } => vcpu_is(*v),
            Synced { pages, .. } => pages.iter().all(|&page| page_is(page)),
            Copied { page, .. } => page_is(*page),
            Start { .. } | Flushed | Asked { .. } | Stopped | Switched => true,
        }
    }

    fn follows_script(&self, event: &Event, v: usize, i: usize) -> bool {
        let vcpu = &self.vcpus[v];
        if vcpu.has_halted || i != vcpu.ops {
            return false;
        }
        match (self.guest.scripts[v].get(i), event) {
            (Some(Op::Load { addr, .. }), Read { addr: said, .. }) => addr == said,
            (Some(Op::Store { addr, len, value, .. }), Write { addr: said, bytes, .. }) => {
                let value = value.unwrap_or(vcpu.register);
                addr == said && bytes[..] == value.to_le_bytes()[..usize::from(*len)]
            }
            (Some(Op::Paint { page, byte }), Paint { page: said, byte: filled, .. }) => {
                *page as usize == *said && byte == filled
            }
            (Some(Op::Add { .. }), Local { .. }) => true,
            (Some(Op::Halt), Halted { .. }) => true,
            _ => false,
        }
    }

    fn exit_reason(&self, vcpu: &Vcpu) -> &'static str {
        if vcpu.has_halted {
            "halted"
        } else if self.has_stopped {
            "stopped"
        } else if vcpu.is_kicked {
            "kicked"
        } else if vcpu.used() >= self.guest.soft() {
            "full"
        } else {
            "yield"
        }
    }

    fn may_ask(&self, r: u64) -> bool {
        if !self.has_started || self.is_asked || r != self.asks + 1 {
            return false;
        }
        if self.has_stopped {
            return !self.is_asked_since_stop;
        }
        let is_open_and_copied = |answer: &Answer| answer.opens && answer.copied == answer.pages.len();
        r <= self.guest.rounds
            && (self.asks == 0
                || self.answer.as_ref().is_some_and(is_open_and_copied)
                    && self.vcpus.iter().all(|vcpu| self.is_paced(vcpu)))
    }

    fn may_answer(&self, r: u64) -> bool {
        self.is_asked
            && r == self.asks
            && self.vcpus.iter().all(|vcpu| !vcpu.is_kicked && vcpu.reset >= vcpu.opened_at_ask)
            && !self.closing.contains(&true)
    }

    fn is_next_copy(&self, r: u64, page: usize) -> bool {
        let is_next = |answer: &Answer| answer.opens && answer.r == r && answer.pages.get(answer.copied) == Some(&page);
        !self.is_asked && self.answer.as_ref().is_some_and(is_next)
    }

    /// The least rule that an event breaks.
    fn broken(&self, event: &Event) -> Option<u32> {
        let mut rules: Vec<(u32, bool)> = Vec::new();
        if let Some((v, page)) = self.owed {
            rules.push((1, event.op().is_some_and(|op| op.0 == v) && self.written(event) == Some(page)));
        }
        rules.push((2, self.names_exist(event)));
        rules.push((3, !self.has_switched));
        if rules.iter().any(|rule| !rule.1) {
            return rules.iter().find(|rule| !rule.1).map(|rule| rule.0);
        }
        if let Some((v, i)) = event.op() {
            let vcpu = &self.vcpus[v];
            rules.push((4, self.follows_script(event, v, i)));
            if let Read { addr, value, .. } = event {
                let at = self.place(*addr, 8).map_or(0, |place| place.1);
                rules.push((5, self.memory[at..at + 8] == value.to_le_bytes()));
            }
            let opened = usize::from(self.just_opened == Some(v));
            let waiting = vcpu.entries.len() - vcpu.pushed - opened;
            rules.push((6, !self.has_stopped));
            rules.push((7, !vcpu.is_kicked));
            rules.push((8, vcpu.used() < self.guest.soft()));
            rules.push((9, (waiting as u64) < self.guest.buffer.max(1)));
            if let Some(page) = self.written(event) {
                rules.push((10, !self.has_started || self.is_cached(v, page)));
            }
        }
        match event {
            Opened { v, k, page } => {
                let protected = !self.is_writable(*page) && !self.is_cached(*v, *page);
                rules.push((11, self.has_started && protected && *k == self.vcpus[*v].entries.len()));
            }
            Filled { v, page } => {
                rules.push((12, self.has_started && self.is_writable(*page) && !self.is_cached(*v, *page)));
            }
            Pushed { v, k } => {
                let vcpu = &self.vcpus[*v];
                rules.push((13, *k == vcpu.pushed && *k < vcpu.entries.len() && vcpu.used() < self.guest.ring));
            }
            Exited { v, why } => {
                let vcpu = &self.vcpus[*v];
                let is_pushed = vcpu.pushed == vcpu.entries.len();
                rules.push((14, vcpu.is_inside && is_pushed && self.exit_reason(vcpu) == why));
            }
            Deposited { v, from, to } => {
                let vcpu = &self.vcpus[*v];
                let is_new = || !vcpu.deposited[*from..*to].contains(&true);
                rules.push((15, from < to && *to <= vcpu.pushed && is_new()));
            }
            Reset { v, k } => {
                let vcpu = &self.vcpus[*v];
                rules.push((16, *k == vcpu.reset && vcpu.deposited.get(*k) == Some(&true)));
            }
            Flushed => rules.push((17, self.closing.contains(&true))),
            Start { .. } => {
                rules.push((18, !self.has_started && self.vcpus.iter().all(|vcpu| self.is_paced(vcpu))));
            }
            Asked { r } => rules.push((19, self.may_ask(*r))),
            Synced { r, pages, .. } => {
                rules.push((20, self.may_answer(*r)));
                let dirty = (0..self.guest.pages).filter(|&page| self.dirty[page]);
                rules.push((21, dirty.eq(pages.iter().copied())));
            }
            _ => {}
        }
        let throttled = match event {
            Throttled { v, us } => Some((*v, *us)),
            _ => None,
        };
        rules.push((22, throttled == self.due.map(|v| (v, self.vcpus[v].throttle))));
        match event {
            Copied { r, page } => rules.push((23, self.is_next_copy(*r, *page))),
            Stopped => {
                let is_few = |answer: &Answer| answer.pages.len() as u64 <= self.guest.threshold;
                rules.push((24, !self.has_stopped && !self.is_asked && self.answer.as_ref().is_some_and(is_few)));
            }
            Switched => {
                let is_copied = |answer: &Answer| answer.copied == answer.pages.len();
                let answered = self.is_asked_since_stop && !self.is_asked;
                rules.push((25, answered && self.answer.as_ref().is_some_and(is_copied)));
            }
            _ => {}
        }
        rules.iter().find(|rule| !rule.1).map(|rule| rule.0)
    }

    fn put(&mut self, kind: u32, number: u32) {
        self.stream.extend(kind.to_le_bytes());
        self.stream.extend(number.to_le_bytes());
    }

    /// Puts a copied page: its bytes, or where it is zero a record of zeros, or one page more in the last.
    fn put_page(&mut self, r: u64, page: usize, goes_on: bool) {
        let bytes = self.memory[page * PAGE_BYTES..(page + 1) * PAGE_BYTES].to_vec();
        let is_zero = bytes.iter().all(|byte| *byte == 0);
        if is_zero && goes_on {
            let at = self.stream.len() - 4;
            let count = u32::from_le_bytes(self.stream[at..].try_into().expect("four bytes"));
            self.stream.splice(at.., (count + 1).to_le_bytes());
        } else if is_zero {
            self.put(4, page as u32);
            self.stream.extend(1u32.to_le_bytes());
            self.records += 1;
        } else {
            self.put(2, page as u32);
            self.stream.extend(bytes);
            self.records += 1;
        }
        self.zeros = is_zero.then_some((r, page + 1));
    }

    /// Takes an event that breaks no rule.
    fn take(&mut self, event: Event) {
        self.owed = None;
        self.just_opened = None;
        let zeros = self.zeros.take();
        if let Some((v, _)) = event.op() {
            let vcpu = &mut self.vcpus[v];
            vcpu.ops += 1;
            vcpu.recent += 1;
            vcpu.is_inside = true;
        }
        match event {
            Start { at } => {
                self.has_started = true;
                self.dirty.fill(true);
                self.last_time = at;
                self.stream.extend(b"DRSTREAM");
                self.put(2, self.guest.pages as u32);
            }
            Read { v, value, .. } => self.vcpus[v].register = value,
            Write { addr, ref bytes, .. } => {
                let at = self.place(addr, bytes.len()).map_or(0, |place| place.1);
                self.memory[at..at + bytes.len()].copy_from_slice(bytes);
            }
            Paint { page, byte, .. } => self.memory[page * PAGE_BYTES..(page + 1) * PAGE_BYTES].fill(byte),
            Local { v, i } => {
                if let Op::Add { n } = self.guest.scripts[v][i] {
                    self.vcpus[v].register = self.vcpus[v].register.wrapping_add(n);
                }
            }
            Halted { v, .. } => self.vcpus[v].has_halted = true,
            Opened { v, page, .. } => {
                self.vcpus[v].entries.push(page);
                self.vcpus[v].deposited.push(false);
                self.writable[page] = true;
                self.cached[v * self.guest.pages + page] = self.epoch;
                self.owed = Some((v, page));
                self.just_opened = Some(v);
            }
            Filled { v, page } => {
                self.cached[v * self.guest.pages + page] = self.epoch;
                self.owed = Some((v, page));
            }
            Pushed { v, .. } => {
                self.vcpus[v].pushed += 1;
                self.vcpus[v].span += 1;
            }
            Exited { v, .. } => {
                self.vcpus[v].is_inside = false;
                self.vcpus[v].is_kicked = false;
            }
            Deposited { v, from, to } => self.vcpus[v].deposited[from..to].fill(true),
            Reset { v, k } => {
                let page = self.vcpus[v].entries[k];
                self.vcpus[v].reset += 1;
                self.writable[page] = false;
                self.closing[page] = true;
            }
            Flushed => {
                self.epoch += 1;
                for page in 0..self.guest.pages {
                    self.dirty[page] |= std::mem::take(&mut self.closing[page]);
                }
            }
            Asked { r } => {
                self.asks = r;
                self.is_asked = true;
                self.is_asked_since_stop = self.has_stopped;
                for vcpu in &mut self.vcpus {
                    vcpu.recent = 0;
                    vcpu.is_kicked = vcpu.is_inside;
                    vcpu.opened_at_ask = vcpu.entries.len();
                }
            }
            Synced { r, at, pages } => self.take_answer(r, at, pages),
            Copied { r, page } => {
                self.dirty[page] = false;
                self.put_page(r, page, zeros == Some((r, page)));
                if let Some(answer) = &mut self.answer {
                    answer.copied += 1;
                }
            }
            Throttled { v, .. } => self.due = (v + 1 < self.vcpus.len()).then_some(v + 1),
            Stopped => self.has_stopped = true,
            Switched => {
                self.has_switched = true;
                self.put(3, self.records);
            }
        }
    }

    fn take_answer(&mut self, r: u64, at: u64, pages: Vec<usize>) {
        self.is_asked = false;
        let time = at.saturating_sub(self.last_time).max(1);
        self.last_time = at;
        for vcpu in &mut self.vcpus {
            let rate = u128::from(std::mem::take(&mut vcpu.span)) * 4_000_000 / u128::from(time);
            if self.guest.quota != 0 {
                vcpu.decide_throttle(self.guest.quota, rate as u64, self.guest.ring);
            }
        }
        self.due = (self.guest.quota != 0 && !self.has_stopped).then_some(0);
        let opens = self.has_stopped || pages.len() as u64 > self.guest.threshold;
        if opens {
            self.put(1, r as u32);
        }
        self.answer = Some(Answer { r, pages, copied: 0, opens });
    }
}

/// The image that a stream loads as, where it is one.
fn load(stream: &[u8]) -> Option<Vec<u8>> {
    let word = |at: usize| Some(u32::from_le_bytes(stream.get(at..at + 4)?.try_into().ok()?));
    if stream.get(..8)? != b"DRSTREAM" || word(8)? != 2 {
        return None;
    }
    let pages = word(12)?;
    let mut image = vec![0; pages as usize * PAGE_BYTES];
    let (mut at, mut round, mut least, mut records) = (16, 0, 0, 0);
    loop {
        let (kind, number) = (word(at)?, word(at + 4)?);
        at += 8;
        match kind {
            1 if round < number && number <= 65 => (round, least) = (number, 0),
            2 if round > 0 && least <= number && number < pages => {
                let to = number as usize * PAGE_BYTES;
                image[to..to + PAGE_BYTES].copy_from_slice(stream.get(at..at + PAGE_BYTES)?);
                at += PAGE_BYTES;
                least = number + 1;
                records += 1;
            }
            4 if round > 0 && least <= number && number < pages => {
                let count = word(at)?;
                if count == 0 || count > pages - number {
                    return None;
                }
                image[number as usize * PAGE_BYTES..(number + count) as usize * PAGE_BYTES].fill(0);
                at += 4;
                least = number + count;
                records += 1;
            }
            3 if number == records && at == stream.len() => return Some(image),
            _ => return None,
        }
    }
}

fn judge(journal: &[u8], stream: &[u8], image: &[u8]) -> Result<String, String> {
    let text = std::str::from_utf8(journal).map_err(|_| "the journal is no text".to_string())?;
    let (head, rest) = text.split_once("journal\n").ok_or("the journal has no line `journal`")?;
    let lines = rest.strip_suffix("end\n").ok_or("the journal has no last line `end`")?;
    let guest = Guest::read(head.as_bytes()).map_err(|why| why.to_string())?;
    if guest.text != head.as_bytes() {
        return Err("the guest's text is not the canonical one".to_string());
    }
    let mut judge = Judge::new(guest);
    let mut events = 0;
    for line in lines.lines() {
        let event = Event::read(line).ok_or(format!("event {events} has no line of an event: {line}"))?;
        if let Some(rule) = judge.broken(&event) {
            return Err(format!("event {events} breaks rule {rule}: {line}"));
        }
        judge.take(event);
        events += 1;
    }
    if judge.owed.is_some() || judge.due.is_some() {
        return Err("the end breaks rule 26".to_string());
    }
    if judge.stream != stream {
        return Err("the stream is not that of the events".to_string());
    }
    let wanted: &[u8] = if judge.has_switched { &judge.memory } else { &[] };
    if wanted != image {
        return Err("the image is not the memory that the events leave".to_string());
    }
    if judge.has_switched && load(stream).as_deref() != Some(image) {
        return Err("the stream does not load as the image".to_string());
    }
    let end = if judge.has_switched { "switched" } else { "unfinished" };
    Ok(format!("legal: {events} events, {} rounds, {end}", judge.asks))
}

fn main() -> ExitCode {
    let paths: Vec<String> = env::args().skip(1).collect();
    let [journal, stream, image] = &paths[..] else {
        eprintln!("plain_judge JOURNAL STREAM IMAGE");
        return ExitCode::from(2);
    };
    let read = |path: &String| fs::read(path).map_err(|why| format!("{path}: {why}"));
    let answer = (|| judge(&read(journal)?, &read(stream)?, &read(image)?))();
    match answer {
        Ok(line) => {
            println!("{line}");
            ExitCode::SUCCESS
        }
        Err(why) => {
            println!("{why}");
            ExitCode::FAILURE
        }
    }
}
