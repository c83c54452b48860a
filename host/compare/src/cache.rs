//! Histories of cache calls: against the model at every slot count, with refusals and stores that were scribbled on; and against the original's
//! `BlockCache` at its own.
//!
//! A list of notices is held against single ones, one after the other, in the model and in the original. In the histories by the model its members in
//! another order, and of these the first of each page alone, are lent with a copy of the store: it is to become the same, with the same report.
use crate::decode::NO_READING;
use crate::form::record_of;
use crate::model::{self, OP, OPS, PAGE, RECORD, Report, Shape};
use crate::{Plan, Tally};
use oracle::block::{self, BlockCache};
use oracle::bus::Plain;
use oracle::made;
use oracle::mmu::Mmu;
use oracle::random::Random;
use std::collections::HashSet;
use unvriscol::door;

/// What a call answers: the number, and what stands beside it.
#[derive(Clone, Copy, Debug, PartialEq)]
enum Answer {
    Valued { number: u64, value: u64 },
    Reported(door::NumberedReport),
}

impl Answer {
    fn valued(answer: Result<u64, u64>) -> Self {
        let (number, value) = answer.map_or_else(|number| (number, 0), |value| (0, value));
        Self::Valued { number, value }
    }

    fn reported(answer: Result<Report, u64>) -> Self {
        let number = answer.err().unwrap_or(0);
        let Report { examined, dropped } = answer.unwrap_or_default();
        Self::Reported(door::NumberedReport {
            number,
            examined,
            dropped,
        })
    }

    fn number(self) -> u64 {
        match self {
            Self::Valued { number, .. } => number,
            Self::Reported(report) => report.number,
        }
    }
}

impl From<u64> for Answer {
    fn from(number: u64) -> Self {
        Self::Valued { number, value: 0 }
    }
}

impl From<door::Answer> for Answer {
    fn from(answer: door::Answer) -> Self {
        Self::Valued {
            number: answer.number,
            value: answer.value,
        }
    }
}

impl From<door::NumberedReport> for Answer {
    fn from(report: door::NumberedReport) -> Self {
        Self::Reported(report)
    }
}

/// A call on a store and, for a write, on memory.
#[derive(Clone, Debug)]
pub enum Call {
    Make(Shape),
    Lookup(u64),
    Insert(u64, Vec<u8>),
    Notice(u64),
    Notices(Vec<u64>),
    Flush,
    Generation,
    Write { address: u64, size: u64, value: u64 },
}

impl Call {
    fn ours(&self, store: &mut [u8], memory: &mut [u8]) -> Answer {
        let (at, len) = (store.as_mut_ptr(), store.len());
        // SAFETY: each pointer and length are those of one slice, lent for the call.
        unsafe {
            match self {
                Self::Make(Shape {
                    reading,
                    e,
                    base,
                    pages,
                }) => door::uv_make(at, len, *reading, *e, *base, *pages).into(),
                Self::Lookup(address) => door::uv_lookup(at, len, *address).into(),
                Self::Insert(address, record) => {
                    door::uv_insert(at, len, *address, record.as_ptr(), record.len()).into()
                }
                Self::Notice(address) => door::uv_notice(at, len, *address).into(),
                Self::Notices(list) => door::uv_notices(at, len, list.as_ptr(), list.len()).into(),
                Self::Flush => door::uv_flush(at, len).into(),
                Self::Generation => door::uv_generation(at, len).into(),
                Self::Write {
                    address,
                    size,
                    value,
                } => door::uv_guest_write(
                    at,
                    len,
                    memory.as_mut_ptr(),
                    memory.len(),
                    *address,
                    *size,
                    *value,
                )
                .into(),
            }
        }
    }

    fn model(&self, store: &mut [u8], memory: &mut [u8]) -> Answer {
        Answer::valued(match self {
            Self::Make(shape) => model::make(store, *shape),
            Self::Lookup(address) => model::lookup(store, *address),
            Self::Insert(address, record) => model::insert(store, *address, record),
            Self::Flush => model::flush(store),
            Self::Generation => model::generation(store),
            Self::Notice(address) => return Answer::reported(model::notice(store, *address)),
            Self::Notices(list) => return Answer::reported(model::notices(store, list)),
            Self::Write {
                address,
                size,
                value,
            } => {
                let written = model::guest_write(store, memory, *address, *size, *value);
                return Answer::reported(written);
            }
        })
    }
}

/// Bytes that are lent, with some around them that nothing may touch.
#[derive(Clone, PartialEq)]
struct Lent(Vec<u8>);

impl Lent {
    const AROUND: usize = 64;

    fn new(bytes: &[u8]) -> Self {
        let around = [0xA5; Self::AROUND];
        Self([&around, bytes, &around].concat())
    }

    fn bytes(&mut self) -> &mut [u8] {
        let end = self.0.len() - Self::AROUND;
        &mut self.0[Self::AROUND..end]
    }
}

/// One side's store and memory.
#[derive(Clone, PartialEq)]
struct Side {
    store: Lent,
    memory: Lent,
}

/// Draws calls that meet each other: few pages and few slots, their ends, and what lies outside.
struct Draw {
    random: Random,
    shape: Shape,
    /// Pages that most addresses lie in.
    hot: Vec<u64>,
    /// The original's view of memory, or of its first page where the whole is too large, to form blocks from.
    bus: Plain,
}

impl Draw {
    fn new(mut random: Random, shape: Shape, memory: &[u8]) -> Self {
        let hot = (0..4)
            .map(|_| shape.base + PAGE * random.below(shape.pages))
            .chain([shape.base, shape.base + PAGE * (shape.pages - 1)])
            .collect();
        let bus = Plain {
            bytes: memory.to_vec(),
            base: shape.base,
        };
        Self {
            random,
            shape,
            hot,
            bus,
        }
    }

    fn one<T: Copy>(&mut self, of: &[T]) -> T {
        of[self.random.below(of.len() as u64) as usize]
    }

    /// An address in memory: on a page that others lie on, and often in a slot that others have.
    fn inside(&mut self) -> u64 {
        let hot = self.hot.clone();
        let page = self.one(&hot);
        match self.random.below(8) {
            0 => page + self.one(&[0, 1, 2, 4094, 4095]),
            1 => page + self.random.below(PAGE),
            2 => self.shape.base + self.random.below(PAGE * self.shape.pages),
            _ => page + self.random.below(24),
        }
    }

    fn address(&mut self) -> u64 {
        let Shape { base, pages, .. } = self.shape;
        let end = base + PAGE * pages;
        if self.random.below(16) != 0 {
            return self.inside();
        }
        let near = self.one(&[base, end, 0, 1 << 56, 1 << 63]);
        let step = self.random.below(12);
        match self.random.below(4) {
            0 => near.wrapping_add(step),
            1 => near.wrapping_sub(step),
            2 => self.inside() ^ 1 << (12 + self.random.below(52)),
            _ => self.random.wide(),
        }
    }

    /// A record that is well formed for an address: what the original forms there, or else any ops that fit.
    fn record(&mut self, address: u64) -> Vec<u8> {
        let seen =
            address >= self.bus.base && address - self.bus.base < self.bus.bytes.len() as u64;
        if seen
            && self.random.below(4) != 0
            && let Some(block) = block::decode_block(&mut self.bus, address)
        {
            return record_of(&block, address).to_vec();
        }
        self.made_record(address, false)
    }

    /// Any ops that fit; or, flawed, with one rule broken at one of them and all others kept.
    fn made_record(&mut self, address: u64, flawed: bool) -> Vec<u8> {
        let mut record = vec![0; RECORD];
        record[..8].copy_from_slice(&address.to_le_bytes());
        let most = self.one(&[1, 2, 5, 64]);
        let flaw_at = if flawed {
            self.random.below(most.min(4))
        } else {
            most
        };
        let (mut count, mut offset) = (0, 0u16);
        while count < most {
            let flaw = (count == flaw_at).then(|| self.random.below(8));
            let mut op = self.random.below(10) as u8;
            let (kinds, has) = OPS[op as usize];
            let mut ilen = if op == 9 { 4 } else { self.one(&[2, 4]) };
            let mut kind = self.random.below(kinds.into()) as u8;
            let mut registers = [0; 3];
            for (register, has) in registers.iter_mut().zip(has) {
                *register = if has { self.random.below(32) as u8 } else { 0 };
            }
            let mut imm = match (op, has[3]) {
                (9, _) => self.random.next() >> 32,
                (_, true) => self.random.wide(),
                _ => 0,
            };
            match flaw {
                Some(0) => op = self.one(&[10, 11, 64, 255]),
                Some(1) => kind = self.one(&[kinds, kinds + 1, 255]),
                Some(2 | 3) => {
                    registers[self.random.below(3) as usize] = self.one(&[1, 31, 32, 255])
                }
                Some(4) => ilen = self.one(&[0, 1, 2, 3, 6, 8]),
                Some(5) => imm |= 1 << self.random.below(64),
                _ => {}
            }
            let end = address % PAGE + u64::from(offset) + u64::from(ilen);
            if end > PAGE && flaw != Some(6) {
                break;
            }
            let place = &mut record[16 + OP * count as usize..][..OP];
            place[..2].copy_from_slice(&[op, kind]);
            place[2..5].copy_from_slice(&registers);
            place[5] = ilen;
            place[6..8].copy_from_slice(&offset.to_le_bytes());
            place[8..].copy_from_slice(&imm.to_le_bytes());
            count += 1;
            offset += u16::from(ilen);
            if (op == 7 || op == 8) && flaw != Some(7) {
                break;
            }
        }
        record[8..10].copy_from_slice(&(count as u16).to_le_bytes());
        record[10..12].copy_from_slice(&offset.to_le_bytes());
        record
    }

    /// A record with one thing wrong, or with what only looks so.
    fn odd_record(&mut self, address: u64) -> Vec<u8> {
        if self.random.below(2) == 0 {
            return self.made_record(address, true);
        }
        let mut record = self.record(address);
        let used = 16 + OP * usize::from(record[8]);
        let at = match self.random.below(4) {
            0 => self.random.below(16) as usize,
            1 => self.random.below(RECORD as u64) as usize,
            _ => self.random.below(used as u64) as usize,
        };
        match self.random.below(6) {
            0 => record.truncate(self.one(&[0, 16, 1024, 1039])),
            1 => record.push(0),
            2 => record[at] ^= 1 << self.random.below(8),
            3 => record[at] = record[at].wrapping_add(1),
            // Jal in the place of the op there.
            4 => record[(at - at % OP).max(16)] = 7,
            _ => record[at] = self.random.next() as u8,
        }
        record
    }

    /// A list of notices: none, one, a few or many, with repeats, in no order.
    fn list(&mut self) -> Vec<u64> {
        let len = match self.random.below(8) {
            0 => 0,
            1 => 1,
            2..7 => 2 + self.random.below(7),
            _ => 64 + self.random.below(64),
        };
        let mut list = Vec::new();
        for _ in 0..len {
            let address = match self.random.below(8) {
                0 => u64::MAX - self.random.below(2 * PAGE),
                1 if !list.is_empty() => self.one(&list),
                _ => self.address(),
            };
            list.push(address);
        }
        list
    }

    fn shuffle(&mut self, list: &mut [u64]) {
        for end in (1..list.len()).rev() {
            list.swap(end, self.random.below(end as u64 + 1) as usize);
        }
    }

    fn call(&mut self) -> Call {
        match self.random.below(100) {
            0..35 => {
                let address = self.address();
                let record = match self.random.below(8) {
                    0 | 1 => self.odd_record(address),
                    2 => {
                        let other = self.address();
                        self.record(other)
                    }
                    _ => self.record(address),
                };
                Call::Insert(address, record)
            }
            35..65 => Call::Lookup(self.address()),
            65..74 => Call::Notice(self.address()),
            74..77 => Call::Notices(self.list()),
            77..93 => {
                let mut address = self.address();
                if self.random.below(3) == 0 {
                    address = (address | 0xFFF).wrapping_sub(self.random.below(9));
                }
                Call::Write {
                    address,
                    size: self.one(&[1, 2, 4, 8, 8, 8, 8, 8, 0, 3, 5, 7, 9, 16, 1 << 32, u64::MAX]),
                    value: self.random.next(),
                }
            }
            93..98 => Call::Generation,
            98 => Call::Flush,
            _ if self.random.below(4) != 0 => Call::Generation,
            _ => {
                let mut shape = self.shape;
                match self.random.below(12) {
                    0 => shape.e = self.one(&[15, 64, 256, u64::MAX, shape.e ^ 1]),
                    1 => shape.pages = self.one(&[0, 65_537, 1 << 52, 1 << 60, shape.pages + 64]),
                    2 => shape.base = self.one(&[1, 2048, 1 << 56, u64::MAX - 4095]),
                    3 => shape.reading = self.one(&NO_READING),
                    4 => shape.reading = self.random.wide(),
                    5 => {
                        // With a length that is wrong too.
                        shape.reading = self.one(&NO_READING);
                        shape.e ^= 1;
                    }
                    6..9 => shape.reading ^= 1,
                    _ => {}
                }
                Call::Make(shape)
            }
        }
    }

    /// Changes a byte or a number of a store as no call would.
    fn scribble(&mut self, store: &mut [u8]) {
        let Shape { base, pages, .. } = self.shape;
        let front = self.shape.place(0).start;
        let slot = self.random.below(self.shape.slots());
        let place = self.shape.place(slot);
        let address = self.address();
        let mut number = |at: usize, number: u64| {
            store[at..at + 8].copy_from_slice(&number.to_le_bytes());
        };
        match self.random.below(13) {
            0 => number(24, self.random.wide()),
            1 => number(24, u64::MAX),
            2 => number(8, self.random.wide()),
            3 => number(8, base ^ PAGE << self.random.below(44)),
            4 => number(16, pages ^ 1 << self.random.below(20)),
            5 => store[self.random.below(24) as usize] ^= 1 << self.random.below(8),
            6 => store[6] = self.random.below(16) as u8,
            12 => store[3] = self.one(&[0, 1, 1, 2, 3, 128, 255]),
            7 => {
                store[32 + self.random.below(front as u64 - 32) as usize] = self.random.next() as u8
            }
            8 | 9 => number(place.start, address),
            10 => number(place.start, u64::MAX),
            _ => {
                store[place.start + self.random.below(RECORD as u64) as usize] =
                    self.random.next() as u8
            }
        }
    }
}

/// One history: so many calls on one store, every lent byte compared after each.
fn history(shape: Shape, calls: u64, scribbled: bool, mut random: Random, tally: &mut Tally) {
    // A memory too large to compare at each call is not lent, but its first page: writes are then refused.
    let whole = shape.pages * PAGE;
    let lent = if whole > 1 << 20 { PAGE } else { whole };
    let memory = made::image(lent as usize, &mut random);
    let mut draw = Draw::new(random, shape, &memory);
    let mut ours = Side {
        store: Lent::new(&vec![0xC3; shape.store_len()]),
        memory: Lent::new(&memory),
    };
    let mut model = ours.clone();
    let mut sound = None;
    for step in 0..calls {
        let call = if step == 1 {
            Call::Make(shape)
        } else {
            draw.call()
        };
        if scribbled && step > 1 && draw.random.below(24) == 0 {
            // The header comes back some calls after it was changed.
            let header = model.store.bytes()[..24].to_vec();
            draw.scribble(ours.store.bytes());
            model.store = ours.store.clone();
            if model.store.bytes()[..24] != header && sound.is_none() {
                sound = Some((step + draw.random.below(6), header));
            }
        }
        if let Some((until, header)) = &sound
            && *until <= step
        {
            for side in [&mut ours, &mut model] {
                side.store.bytes()[..24].copy_from_slice(header);
            }
            sound = None;
        }
        let expected = call.model(model.store.bytes(), model.memory.bytes());
        if let Call::Notices(list) = &call {
            let mut other = list.clone();
            draw.shuffle(&mut other);
            let mut pages = HashSet::new();
            let first_of_page = |address: &u64| pages.insert(address / PAGE);
            let once = other.iter().copied().filter(first_of_page).collect();
            for other in [other, once].map(Call::Notices) {
                let mut store = ours.store.clone();
                let answer = other.ours(store.bytes(), &mut []);
                tally.expect(answer == expected && store == model.store, || {
                    format!("{shape:x?}, call {step}, {other:x?} for {call:x?}: the model gives {expected:?}, ours {answer:?}")
                });
            }
        }
        let lent = call.clone();
        let answer = lent.ours(ours.store.bytes(), ours.memory.bytes());
        let kept = match (&call, &lent) {
            (Call::Insert(_, before), Call::Insert(_, after)) => before == after,
            (Call::Notices(before), Call::Notices(after)) => before == after,
            _ => true,
        };
        tally.expects(expected.number());
        if let Answer::Reported(report) = expected {
            tally.expects_dropped(report.dropped);
        }
        let same = ours == model;
        tally.expect(answer == expected && same && kept, || {
            format!("{shape:x?}, call {step}, {call:x?}: the model gives {expected:?}, ours {answer:?}; lent bytes {}", if same { "the same" } else { "differ" })
        });
        if !same {
            ours = model.clone();
        }
        if let Call::Write { address, size, .. } = call
            && answer.number() == 0
        {
            // The base is what the header says now.
            let at = (address - model::number(ours.store.bytes(), 8)) as usize;
            let written = at..at + size as usize;
            draw.bus.bytes[written.clone()].copy_from_slice(&ours.memory.bytes()[written]);
        }
    }
}

/// Every slot count, with as many calls as some gigabytes of comparing allow.
pub fn histories(plan: &Plan, tally: &mut Tally) {
    let budget: u64 = if plan.all { 1 << 37 } else { 1 << 34 };
    let mut part = 0x100;
    for e in 0..=14 {
        for (pages, base) in [
            (1, 0),
            (2, 0x8000_0000),
            (3, (1 << 56) - 3 * PAGE),
            (65, 0x1000),
            (128, 0x8000_0000),
            (65_536, 0),
            (65_536, (1 << 56) - 65_536 * PAGE),
        ] {
            let shape = Shape {
                reading: (part / 2) % 2,
                e,
                base,
                pages,
            };
            let lent = shape.store_len() as u64 + (pages * PAGE).min(1 << 20);
            let calls = (budget / 7 / lent).clamp(40, 50_000);
            for scribbled in [false, true] {
                part += 1;
                history(
                    shape,
                    calls / 2,
                    scribbled,
                    Random::new(plan.seed, part),
                    tally,
                );
            }
        }
    }
}

/// What the original does by calling `notify_store`, which says nothing: what it examines goes by the marks of the pages, each given once, and what it
/// drops is counted.
pub fn reported(
    rust: &mut BlockCache,
    slots: u64,
    pages: &[u64],
    doing: impl FnOnce(&mut BlockCache),
) -> Report {
    let marked = pages.iter().filter(|&&page| block::marked(rust, page));
    let examined = slots * marked.count() as u64;
    let before = block::live(rust);
    doing(rust);
    Report {
        examined,
        dropped: (before - block::live(rust)) as u64,
    }
}

/// What the original does by calling `notify_store` for one address after the other, summed.
pub fn all_reported(rust: &mut BlockCache, slots: u64, addresses: &[u64]) -> Report {
    let mut sum = Report::default();
    for &address in addresses {
        let notice = |rust: &mut BlockCache| rust.notify_store(address);
        sum += reported(rust, slots, &[address / PAGE], notice);
    }
    sum
}

/// The pages of a write, counted from address 0.
pub fn pages_of(address: u64, size: u64) -> Vec<u64> {
    (address / PAGE..=(address + size - 1) / PAGE).collect()
}

/// The original's cache beside ours at e = 14: answers and records at each call; all slots, tags and page marks at every 512th.
pub fn original(plan: &Plan, tally: &mut Tally) {
    for (part, (pages, base)) in [(2, 0), (9, 0x8000_0000), (70, 0x1000)]
        .into_iter()
        .enumerate()
    {
        let shape = Shape {
            reading: 0,
            e: 14,
            base,
            pages,
        };
        let mut random = Random::new(plan.seed, 0x200 + part as u64);
        let memory = made::image((pages * PAGE) as usize, &mut random);
        let mut draw = Draw::new(random, shape, &memory);
        let mut ours = Side {
            store: Lent::new(&vec![0; shape.store_len()]),
            memory: Lent::new(&memory),
        };
        let mut rust = BlockCache::new();
        let mut mmu = Mmu::new();
        Call::Make(shape).ours(ours.store.bytes(), &mut []);
        for step in 0..if plan.all { 1_000_000 } else { 70_000 } {
            let call = match draw.call() {
                // The original takes any block; what the model refuses is not put to it.
                Call::Insert(address, _) if shape.holds(address) => {
                    let Some(block) = block::decode_block(&mut draw.bus, address) else {
                        continue;
                    };
                    let record = record_of(&block, address).to_vec();
                    rust.insert(address, block);
                    Call::Insert(address, record)
                }
                Call::Insert(..) | Call::Make(_) => continue,
                Call::Write { address, size, .. }
                    if !([1, 2, 4, 8].contains(&size)
                        && shape.holds(address)
                        && shape.holds(address + size - 1)) =>
                {
                    continue;
                }
                call => call,
            };
            let slots = block::SLOTS as u64;
            let expected = match &call {
                Call::Notice(address) => {
                    Answer::reported(Ok(all_reported(&mut rust, slots, &[*address])))
                }
                Call::Notices(list) => Answer::reported(Ok(all_reported(&mut rust, slots, list))),
                Call::Write {
                    address,
                    size,
                    value,
                } => {
                    let pages = pages_of(*address, *size);
                    let write = |rust: &mut BlockCache| {
                        block::raw_store(&mut mmu, &mut draw.bus, rust, 0, *address, *value, *size)
                            .expect("no translation")
                    };
                    Answer::reported(Ok(reported(&mut rust, slots, &pages, write)))
                }
                Call::Flush => {
                    rust.flush_all();
                    Answer::valued(Ok(0))
                }
                Call::Generation => Answer::valued(Ok(rust.code_generation())),
                Call::Lookup(address) => Answer::valued(match rust.lookup(*address) {
                    Some(_) => Ok(shape.place_of(*address).start as u64),
                    None => Err(9),
                }),
                Call::Insert(..) | Call::Make(_) => Answer::valued(Ok(0)),
            };
            if let Answer::Reported(report) = expected {
                tally.expects_dropped(report.dropped);
            }
            let answer = call.ours(ours.store.bytes(), ours.memory.bytes());
            let shown = match call {
                Call::Lookup(address) => rust.lookup(address).is_none_or(|block| {
                    ours.store.bytes()[shape.place_of(address)] == record_of(&block, address)
                }),
                _ => true,
            };
            let same = answer == expected && shown;
            let whole = step % 512 != 0
                || (ours.memory.bytes() == draw.bus.bytes
                    && store_of(&rust, shape) == ours.store.bytes());
            tally.expect(same && whole, || {
                format!("{call:x?}: ours {answer:?}, the Rust's {expected:?}")
            });
        }
        let whole =
            ours.memory.bytes() == draw.bus.bytes && store_of(&rust, shape) == ours.store.bytes();
        tally.expect(whole, || "the store at the end".into());
    }
}

/// What the original's cache is as a store.
pub fn store_of(rust: &BlockCache, shape: Shape) -> Vec<u8> {
    let mut store = vec![0; shape.store_len()];
    model::make(&mut store, shape).expect("a shape within the bounds");
    store[24..32].copy_from_slice(&rust.code_generation().to_le_bytes());
    for page in 0..shape.pages {
        if block::marked(rust, shape.base / PAGE + page) {
            store[32 + page as usize / 8] |= 1 << (page % 8);
        }
    }
    for slot in 0..block::SLOTS {
        if let (tag, Some(block)) = block::slot(rust, slot) {
            store[shape.place_of(tag)].copy_from_slice(&record_of(block, tag));
        }
    }
    store
}
