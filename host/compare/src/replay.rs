//! Writes down the Rust's own answers for crates/replay, and beside them the manual's as docs/DIFFERENCES.md tells them. Its program makes the same
//! calls without any Rust and counts the answers that are the same. `--replay crates/replay` writes what the program reads, `stdin`, and what it is to print, `stdout`.
//!
//! First 16 pages of memory, then entries of 40 bytes: tag (1), number (1), a small argument (2), digest (4), two arguments, a value, which of a notice,
//! a list of them and a write is the slots examined, and beside it the places dropped (8 each). The reading is the small argument of a run and of an
//! insertion, and the value of Make.
//! A run is 128 calls with one digest over each call's number and lent bytes, which are 170 beforehand.
//! A list of notices is not written out: the small argument is its length, at most 64, and address i of it is the first argument and
//! (i * the second) mod 2^17 behind, mod 2^64.
use crate::cache::{all_reported, pages_of, reported, store_of};
use crate::form::{block_of, record_of};
use crate::model::{PAGE, RECORD, Report, Shape};
use crate::{alu, manual, record};
use oracle::block::{self, BlockCache, Op};
use oracle::bus::Plain;
use oracle::mmu::Mmu;
use oracle::random::Random;
use std::io;
use std::path::Path;
use unvriscol::Reading;

const RUN: u64 = 128;
const BEFORE: u8 = 170;
const PAGES: u64 = 16;

/// The original's cache has 2^14 slots, which is more than the program can keep. At `address` two addresses share a slot of 2^8 exactly when they
/// share one of 2^14, so that its answers are those of a store of 2^8.
const SHAPE: Shape = Shape {
    reading: Reading::Rust as u64,
    e: 8,
    base: 0x8000_0000,
    pages: PAGES,
};

fn address(random: &mut Random) -> u64 {
    let page = random.below(PAGES);
    // Few places on each page, so that calls meet; odd ones too.
    SHAPE.base + PAGE * page + 64 * (page % 8) + random.below(64) / (1 + random.below(8))
}

/// Changes with any one byte: 257 and the modulus, a prime, have no common factor.
#[derive(Clone, Copy)]
struct Digest(u64);

impl Digest {
    fn bytes(mut self, bytes: &[u8]) -> Self {
        for &byte in bytes {
            self.0 = (self.0 * 257 + u64::from(byte) + 1) % 4_294_967_291;
        }
        self
    }

    fn answer(self, number: u8, bytes: &[u8]) -> Self {
        self.bytes(&[number]).bytes(bytes)
    }
}

/// What an entry is about; the positions are the tags.
#[derive(Clone, Copy)]
enum Tag {
    Halfwords,
    Words,
    Forms,
    Alu,
    Make,
    Lookup,
    Insert,
    Notice,
    Flush,
    Generation,
    Write,
    Whole,
    Notices,
}

struct Entry {
    tag: Tag,
    number: u8,
    small: u16,
    digest: Digest,
    a: u64,
    b: u64,
    value: u64,
    dropped: u64,
}

impl Entry {
    fn new(tag: Tag) -> Self {
        Self {
            tag,
            number: 0,
            small: 0,
            digest: Digest(0),
            a: 0,
            b: 0,
            value: 0,
            dropped: 0,
        }
    }

    fn reported(tag: Tag, Report { examined, dropped }: Report) -> Self {
        Self {
            value: examined,
            dropped,
            ..Self::new(tag)
        }
    }

    fn bytes(&self) -> Vec<u8> {
        let mut bytes = vec![self.tag as u8, self.number];
        bytes.extend(self.small.to_le_bytes());
        bytes.extend((self.digest.0 as u32).to_le_bytes());
        for number in [self.a, self.b, self.value, self.dropped] {
            bytes.extend(number.to_le_bytes());
        }
        bytes
    }
}

fn decoded(digest: Digest, op: Option<Op>, ilen: u8) -> Digest {
    match op {
        Some(op) => digest.answer(0, &record::of(op, ilen)),
        None => digest.answer(4, &[BEFORE; record::LEN]),
    }
}

/// A run in a reading: call i of it gives what `one` adds to the digest.
fn run(tag: Tag, reading: Reading, first: u64, one: impl FnMut(Digest, u64) -> Digest) -> Entry {
    Entry {
        small: reading as u16,
        a: first,
        digest: (0..RUN).fold(Digest(0), one),
        ..Entry::new(tag)
    }
}

/// A run in a reading that is none: each call answers 2, and its record of so many bytes stays.
fn no_reading(tag: Tag, first: u64, len: usize) -> Entry {
    let refused = |digest: Digest, _| digest.answer(2, &vec![BEFORE; len]);
    Entry {
        small: 2,
        ..run(tag, Reading::Rust, first, refused)
    }
}

/// Every halfword in each reading.
fn halfwords() -> Vec<Entry> {
    let mut entries = Vec::new();
    for reading in Reading::ALL {
        let decoder = match reading {
            Reading::Rust => block::HALFWORD,
            Reading::Manual => manual::halfword,
        };
        entries.extend((0..1 << 16).step_by(RUN as usize).map(|first| {
            run(Tag::Halfwords, reading, first, |digest, i| {
                decoded(digest, decoder((first + i) as u16), 2)
            })
        }));
    }
    entries.push(no_reading(Tag::Halfwords, 0x8000, record::LEN));
    entries
}

/// A run for each of the 2^7 low bits and each funct3, over every funct7; for the immediates that are opcodes (0x13 and 0x1b, funct3 1 and 5) one
/// for each of the five bits below funct7 too.
fn words(random: &mut Random) -> Vec<Entry> {
    let mut firsts = Vec::new();
    for low in 0..128 {
        for funct3 in 0..8u64 {
            let shape = funct3 << 12 | low;
            firsts.push(random.next() & 0x01FF_8F80 | shape);
            if (low == 0x13 || low == 0x1b) && (funct3 == 1 || funct3 == 5) {
                firsts.extend((0..32).map(|rs2| random.next() & 0x000F_8F80 | rs2 << 20 | shape));
            }
        }
    }
    let mut entries = Vec::new();
    for reading in Reading::ALL {
        let decoder = match reading {
            Reading::Rust => block::WORD,
            Reading::Manual => manual::word,
        };
        entries.extend(firsts.iter().map(|&first| {
            run(Tag::Words, reading, first, |digest, i| {
                decoded(digest, decoder((first | i << 25) as u32), 4)
            })
        }));
    }
    entries.push(no_reading(Tag::Words, 0x0000_0013, record::LEN));
    entries
}

/// Every address of the first, one other and the last page, in each reading.
fn forms(bus: &mut Plain) -> Vec<Entry> {
    let mut entries = Vec::new();
    for reading in Reading::ALL {
        for page in [0, 7, PAGES - 1] {
            for first in (page * PAGE..(page + 1) * PAGE).step_by(RUN as usize) {
                let first = bus.base + first;
                entries.push(run(Tag::Forms, reading, first, |digest, i| match block_of(
                    reading,
                    bus,
                    first + i,
                ) {
                    Some(block) => digest.answer(0, &record_of(&block, first + i)),
                    None => digest.answer(4, &[BEFORE; RECORD]),
                }));
            }
        }
    }
    entries.push(no_reading(Tag::Forms, bus.base, RECORD));
    entries
}

/// Each kind on pairs of edges and numbers of any magnitude; and the kinds that are refused.
fn alu(random: &mut Random) -> Vec<Entry> {
    const EDGES: [u64; 8] = [0, 1, 31, 64, 0x7FFF_FFFF, 0x8000_0000, 1 << 63, u64::MAX];
    let mut entries = Vec::new();
    for kind in alu::kept() {
        for i in 0..24 {
            let (a, b) = if i < 16 {
                (EDGES[i % 8], EDGES[(i * 5 + i / 8) % 8])
            } else {
                (random.wide(), random.wide())
            };
            entries.push(Entry {
                small: kind as u16,
                a,
                b,
                value: block::computed(kind, a, b),
                ..Entry::new(Tag::Alu)
            });
        }
    }
    for small in (15..28).chain([58, 59, 255, 256, 65_535]) {
        entries.push(Entry {
            small,
            number: 7,
            a: random.next(),
            b: random.next(),
            ..Entry::new(Tag::Alu)
        });
    }
    entries
}

/// A list of notices, from an address on, or from one before memory or at the top of all addresses.
fn notices(rust: &mut BlockCache, address: u64, random: &mut Random) -> Entry {
    let small = [0, 1, 2, 5, 64][random.below(5) as usize];
    let a = match random.below(4) {
        0 => SHAPE.base - PAGE * random.below(4),
        1 => u64::MAX - random.below(PAGE),
        _ => address,
    };
    // In one page, in each or in every third on the way up or down, and in no order.
    let b = match random.below(4) {
        0 => random.below(4),
        1 => PAGE,
        2 => (3 * PAGE).wrapping_neg(),
        _ => random.next(),
    };
    let list: Vec<u64> = (0..u64::from(small))
        .map(|i| a.wrapping_add(i.wrapping_mul(b) % (2 * PAGES * PAGE)))
        .collect();
    Entry {
        small,
        a,
        b,
        ..Entry::reported(Tag::Notices, all_reported(rust, SHAPE.slots(), &list))
    }
}

/// Histories of the original's cache, each from a new one on and in one reading, with the whole store and memory at times.
fn histories(bus: &mut Plain, random: &mut Random) -> Vec<Entry> {
    let mut entries = Vec::new();
    for history in 0..4 {
        let reading = Reading::ALL[history % 2];
        let shape = Shape {
            reading: reading.number(),
            ..SHAPE
        };
        // Readings that are none; then the store's.
        for value in [2, 256, 1 << 32, u64::MAX, shape.reading] {
            entries.push(Entry {
                number: if value > 1 { 2 } else { 0 },
                small: SHAPE.e as u16,
                a: SHAPE.base,
                b: SHAPE.pages,
                value,
                ..Entry::new(Tag::Make)
            });
        }
        let mut rust = BlockCache::new();
        let mut mmu = Mmu::new();
        for step in 1..=500 {
            let a = address(random);
            let entry = match random.below(100) {
                0..40 => {
                    let Some(block) = block_of(reading, bus, a) else {
                        continue;
                    };
                    rust.insert(a, block);
                    Entry {
                        small: reading as u16,
                        ..Entry::new(Tag::Insert)
                    }
                }
                40..75 => match rust.lookup(a) {
                    Some(block) => Entry {
                        digest: Digest(0).bytes(&record_of(&block, a)),
                        value: SHAPE.place_of(a).start as u64,
                        ..Entry::new(Tag::Lookup)
                    },
                    None => Entry {
                        number: 9,
                        ..Entry::new(Tag::Lookup)
                    },
                },
                75..80 => {
                    Entry::reported(Tag::Notice, all_reported(&mut rust, SHAPE.slots(), &[a]))
                }
                80..83 => {
                    entries.push(notices(&mut rust, a, random));
                    continue;
                }
                83..94 => {
                    let size = [1, 2, 4, 8][random.below(4) as usize];
                    // A third of them at a page's end, and over it where a page follows.
                    let a = if random.below(3) == 0 && a / PAGE + 1 < SHAPE.base / PAGE + PAGES {
                        (a | 0xFFF) - random.below(8)
                    } else {
                        a
                    };
                    let b = random.next();
                    let write = |rust: &mut BlockCache| {
                        block::raw_store(&mut mmu, bus, rust, 0, a, b, size)
                            .expect("no translation")
                    };
                    let report = reported(&mut rust, SHAPE.slots(), &pages_of(a, size), write);
                    entries.push(Entry {
                        small: size as u16,
                        a,
                        b,
                        ..Entry::reported(Tag::Write, report)
                    });
                    continue;
                }
                94..99 => Entry {
                    value: rust.code_generation(),
                    ..Entry::new(Tag::Generation)
                },
                _ => {
                    rust.flush_all();
                    Entry::new(Tag::Flush)
                }
            };
            entries.push(Entry { a, ..entry });
            if step % 100 == 0 {
                entries.push(whole(&rust, shape, bus));
            }
        }
        entries.push(whole(&rust, shape, bus));
    }
    entries
}

fn whole(rust: &BlockCache, shape: Shape, bus: &Plain) -> Entry {
    Entry {
        digest: Digest(0).bytes(&store_of(rust, shape)).bytes(&bus.bytes),
        ..Entry::new(Tag::Whole)
    }
}

pub fn write(folder: &Path) -> io::Result<()> {
    let mut random = Random::new(1, 9);
    let mut bus = Plain {
        bytes: manual::image((PAGES * PAGE) as usize, &mut random),
        base: SHAPE.base,
    };
    let mut stdin = bus.bytes.clone();
    let mut stdout = String::new();
    for (name, entries) in [
        ("halfwords", halfwords()),
        ("words", words(&mut random)),
        ("blocks", forms(&mut bus)),
        ("alu", alu(&mut random)),
        ("cache", histories(&mut bus, &mut random)),
    ] {
        stdout += &format!("{name} {0} of {0}\n", entries.len());
        stdin.extend(entries.iter().flat_map(Entry::bytes));
    }
    stdout += &format!("input {}\n", Digest(0).bytes(&stdin).0);
    std::fs::write(folder.join("stdin"), &stdin)?;
    std::fs::write(folder.join("stdout"), &stdout)?;
    print!("{stdout}");
    println!("{} bytes", stdin.len());
    Ok(())
}
