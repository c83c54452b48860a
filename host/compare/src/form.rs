//! Forming in each reading: the number, the record byte for byte, and the bytes around it, at every offset of made, random and given images.
use crate::decode::NO_READING;
use crate::model::{PAGE, RECORD, Shape};
use crate::{Plan, Tally, manual, record};
use oracle::block::{self, Block, DecodedInsn, Op};
use oracle::bus::Plain;
use oracle::made;
use oracle::random::Random;
use unvriscol::Reading;
use unvriscol::door::uv_form;

/// The original's block as a block record.
pub fn record_of(block: &Block, address: u64) -> [u8; RECORD] {
    let mut bytes = [0; RECORD];
    bytes[..8].copy_from_slice(&address.to_le_bytes());
    bytes[8..10].copy_from_slice(&(block.ops.len() as u16).to_le_bytes());
    bytes[10..12].copy_from_slice(&(block.byte_len as u16).to_le_bytes());
    for (decoded, place) in block
        .ops
        .iter()
        .zip(bytes[16..].chunks_exact_mut(record::LEN))
    {
        place.copy_from_slice(&record::of(decoded.op, decoded.ilen));
        place[6..8].copy_from_slice(&decoded.pc_off.to_le_bytes());
    }
    bytes
}

/// What words and halfwords read as.
type Decoders = (fn(u32) -> Option<Op>, fn(u16) -> Option<Op>);

const RUST: Decoders = (block::WORD, block::HALFWORD);
const MANUAL: Decoders = (manual::word, manual::halfword);

/// The block at an address by docs/FORMATS.md, "Forming", with given decoders: the original's loop is for its own alone.
fn formed(bus: &Plain, address: u64, (word, halfword): Decoders) -> Option<Block> {
    let from = (address - bus.base) as usize;
    let s = &bus.bytes[from..from + (PAGE - address % PAGE) as usize];
    let (mut ops, mut at) = (Vec::new(), 0);
    while ops.len() < 64
        && let Some(&low) = s[at..].first_chunk()
    {
        let low = u16::from_le_bytes(low);
        let (op, ilen) = if low & 3 != 3 {
            let Some(op) = halfword(low) else { break };
            (op, 2)
        } else {
            let Some(&raw) = s[at..].first_chunk() else {
                break;
            };
            let raw = u32::from_le_bytes(raw);
            let op = word(raw);
            let stops = matches!((raw & 0x7f, raw >> 12 & 7), (0x73, 0) | (0x0f, 1));
            if op.is_none() && stops {
                break;
            }
            (op.unwrap_or(Op::Fallback { raw }), 4)
        };
        let ends = matches!(op, Op::Jal { .. } | Op::Jalr { .. });
        let pc_off = at as u16;
        ops.push(DecodedInsn { op, pc_off, ilen });
        at += usize::from(ilen);
        if ends {
            break;
        }
    }
    (!ops.is_empty()).then_some(Block {
        ops: ops.into(),
        byte_len: at as u32,
    })
}

/// The block in a reading: the original's, or the model's of the manual.
pub fn block_of(reading: Reading, bus: &mut Plain, address: u64) -> Option<Block> {
    match reading {
        Reading::Rust => block::decode_block(bus, address),
        Reading::Manual => formed(bus, address, MANUAL),
    }
}

/// The checks in the order of docs/FORMATS.md, "Orders of checks", and then the block.
fn expected(reading: u64, bus: &mut Plain, address: u64, lent: &mut [u8]) -> u64 {
    let Some(&known) = Reading::ALL.get(reading as usize) else {
        return 2;
    };
    let len = bus.bytes.len() as u64;
    let shape = Shape {
        reading,
        e: 0,
        base: bus.base,
        pages: len / PAGE,
    };
    if !len.is_multiple_of(PAGE) || !shape.in_bounds() {
        return 2;
    }
    if lent.len() != RECORD {
        return 6;
    }
    if !shape.holds(address) {
        return 3;
    }
    match block_of(known, bus, address) {
        Some(block) => {
            lent.copy_from_slice(&record_of(&block, address));
            0
        }
        None => 4,
    }
}

fn ours(reading: u64, memory: &[u8], base: u64, address: u64, lent: &mut [u8]) -> u64 {
    // SAFETY: each pointer and length are those of one slice, lent for the call; the second is lent alone.
    unsafe {
        uv_form(
            reading,
            memory.as_ptr(),
            memory.len(),
            base,
            address,
            lent.as_mut_ptr(),
            lent.len(),
        )
    }
}

const AROUND: usize = 16;
const BEFORE: u8 = 0xA5;

/// One call on a record of `len` bytes with bytes around it.
fn one(reading: u64, bus: &mut Plain, address: u64, len: usize, tally: &mut Tally) {
    const MOST: usize = AROUND + RECORD + 8 + AROUND;
    let (mut left, mut right) = ([BEFORE; MOST], [BEFORE; MOST]);
    let number = expected(reading, bus, address, &mut left[AROUND..AROUND + len]);
    tally.expects(number);
    let answer = ours(
        reading,
        &bus.bytes,
        bus.base,
        address,
        &mut right[AROUND..AROUND + len],
    );
    tally.expect(answer == number && left == right, || {
        format!(
            "form at {address:#x} of {} bytes from {:#x} on in reading {reading}: {number} {left:x?} is expected, ours {answer} {right:x?}",
            bus.bytes.len(),
            bus.base
        )
    });
}

/// Every address of a memory, odd ones too. The model's loop with the original's decoders is held to the original's.
fn everywhere(reading: Reading, bus: &mut Plain, tally: &mut Tally) {
    let before = bus.bytes.clone();
    for offset in 0..bus.bytes.len() as u64 {
        let address = bus.base + offset;
        one(reading.number(), bus, address, RECORD, tally);
        if reading == Reading::Rust {
            let model = formed(bus, address, RUST).map(|block| record_of(&block, address));
            let original = block::decode_block(bus, address);
            let same = model == original.map(|block| record_of(&block, address));
            tally.expect(same, || format!("the model of forming at {address:#x}"));
        }
    }
    tally.expect(bus.bytes == before, || "forming changed memory".into());
}

/// The highest base that a memory of so many bytes may have.
fn highest(len: usize) -> u64 {
    (1 << 56) - len as u64
}

/// Given images at every address; made and random ones of several pages at the lowest, a usual and the highest base.
fn images(reading: Reading, plan: &Plan, tally: &mut Tally) {
    let mut random = Random::new(plan.seed, 6);
    for (name, image) in &plan.images {
        let mut bytes = image.clone();
        bytes.resize(bytes.len().next_multiple_of(PAGE as usize), 0);
        let pages = bytes.len() / PAGE as usize;
        println!("image {name}: length {}, pages {pages}", image.len());
        everywhere(
            reading,
            &mut Plain {
                bytes,
                base: 0x8000_0000,
            },
            tally,
        );
    }
    for round in 0..if plan.all { 400 } else { 20 } {
        for pages in [1, 2, 3, 9] {
            let len = pages * PAGE as usize;
            let bytes = match round % 3 {
                0 if reading == Reading::Manual => manual::image(len, &mut random),
                0 => made::image(len, &mut random),
                1 => (0..len).map(|_| random.next() as u8).collect(),
                // Code among zeros and bytes at random, with words over the page ends.
                _ => made::image(len, &mut random)
                    .into_iter()
                    .map(|byte| match random.below(40) {
                        0 => 0,
                        1 => random.next() as u8,
                        _ => byte,
                    })
                    .collect(),
            };
            let base = [0, 0x8000_0000, highest(len)][round / 3 % 3];
            everywhere(reading, &mut Plain { bytes, base }, tally);
        }
    }
}

pub fn rust_images(plan: &Plan, tally: &mut Tally) {
    images(Reading::Rust, plan, tally);
}

pub fn manual_images(plan: &Plan, tally: &mut Tally) {
    images(Reading::Manual, plan, tally);
}

/// Readings, lengths, bases, addresses and record lengths that are refused, and several of them together; no byte changes.
pub fn refusals(plan: &Plan, tally: &mut Tally) {
    let mut random = Random::new(plan.seed, 7);
    let longest = 65_536 * PAGE as usize;
    let code = made::image(3 * PAGE as usize, &mut random);
    for len in [
        0,
        1,
        2,
        4095,
        4096,
        4097,
        8192,
        12_287,
        12_288,
        longest,
        longest + 4096,
    ] {
        let mut bytes = code.clone();
        bytes.resize(len, 0);
        let mut bus = Plain { bytes, base: 0 };
        let bases = [0, 1, 2048, 4095, 4096, 0x8000_0000, 0x8000_0001]
            .into_iter()
            .chain([
                highest(len),
                highest(len).wrapping_add(1),
                highest(len).wrapping_add(PAGE),
            ])
            .chain([1 << 56, 1 << 63, u64::MAX, u64::MAX - 4095]);
        for base in bases {
            bus.base = base;
            let end = base.wrapping_add(len as u64);
            let addresses = [0, 1, base, end, u64::MAX]
                .into_iter()
                .flat_map(|n| [n.wrapping_sub(2), n.wrapping_sub(1), n, n.wrapping_add(1)])
                .chain([base ^ 1 << 63, base.wrapping_add(PAGE - 2), base ^ 1 << 56]);
            for address in addresses {
                for record in [RECORD, 0, 16, RECORD - 1, RECORD + 1] {
                    let none = NO_READING[random.below(7) as usize];
                    for reading in [0, 1, none] {
                        one(reading, &mut bus, address, record, tally);
                    }
                }
            }
        }
    }
}
