//! The safe crate's enums: the same names and fields as the original's, seen by what both print, and records there and back; and its cache, by the
//! original's method names on both sides.
use crate::{Plan, Tally, manual};
use oracle::block::{self, Op};
use oracle::bus::Plain;
use oracle::made;
use oracle::random::Random;
use unvriscol::{DecodedInsn, Error, Reading, decode_halfword, decode_word};

fn one(
    raw: u32,
    ilen: u8,
    original: Option<Op>,
    ours: Result<DecodedInsn, Error>,
    tally: &mut Tally,
) {
    let same = match (&original, &ours) {
        (Some(op), Ok(decoded)) => {
            format!("{op:?}") == format!("{:?}", decoded.op)
                && (decoded.pc_off, decoded.ilen) == (0, ilen)
                && DecodedInsn::from_record(&decoded.to_record()).as_ref() == Some(decoded)
        }
        (None, Err(error)) => *error == Error::NothingThere,
        _ => false,
    };
    tally.expect(same, || {
        format!("{raw:#x}: {original:?} is expected, the crate gives {ours:?}")
    });
}

pub fn run(plan: &Plan, tally: &mut Tally) {
    for raw in 0..=u16::MAX {
        let [rust, by_manual] = Reading::ALL.map(|reading| decode_halfword(reading, raw));
        one(raw.into(), 2, (block::HALFWORD)(raw), rust, tally);
        one(raw.into(), 2, manual::halfword(raw), by_manual, tally);
    }
    let mut random = Random::new(plan.seed, 4);
    for _ in 0..if plan.all { 10_000_000 } else { 1_000_000 } {
        for raw in [random.next() as u32 | 3, manual::some_word(&mut random)] {
            let [rust, by_manual] = Reading::ALL.map(|reading| decode_word(reading, raw));
            one(raw, 4, (block::WORD)(raw), rust, tally);
            one(raw, 4, manual::word(raw), by_manual, tally);
        }
    }
    cache(&mut random, tally);
}

/// What both sides' blocks print.
fn shown(original: Option<&block::Block>) -> Option<String> {
    original.map(|block| format!("{} {:?}", block.byte_len, block.ops))
}

fn shown_ours(ours: Option<&unvriscol::Block>) -> Option<String> {
    ours.map(|block| format!("{} {:?}", block.byte_len, block.ops))
}

/// The core's own calls, in the same words on both sides.
fn cache(random: &mut Random, tally: &mut Tally) {
    let (base, len) = (0x8000_0000, 0x1_0000);
    let mut bus = Plain {
        bytes: made::image(len, random),
        base,
    };
    let mut original = block::BlockCache::new();
    let mut ours = unvriscol::BlockCache::new(14, base, len as u64 / 4096).expect("in bounds");
    for _ in 0..50_000 {
        // Sixteen pages in two halves that share slots; few places on each.
        let address = base + 4096 * random.below(16) + random.below(48);
        let same = match random.below(8) {
            0 if random.below(4) == 0 => {
                // Some of the pages, a second one twice.
                let addresses = [address, address ^ 4096, base, address ^ 4097];
                for address in addresses {
                    original.notify_store(address);
                }
                ours.notice_all(&addresses);
                original.code_generation() == ours.code_generation()
            }
            0 => {
                original.notify_store(address);
                ours.notify_store(address);
                original.code_generation() == ours.code_generation()
            }
            1 if random.below(64) == 0 => {
                original.flush_all();
                ours.flush_all();
                true
            }
            2..5 => {
                let there = original.lookup(address);
                shown(there.as_deref()) == shown_ours(ours.lookup(address).as_ref())
            }
            _ => {
                let decoded = block::decode_block(&mut bus, address);
                let ours_decoded =
                    unvriscol::decode_block(ours.reading(), &(&bus.bytes[..], base), address);
                let same = shown(decoded.as_ref()) == shown_ours(ours_decoded.as_ref());
                if let (Some(decoded), Some(ours_decoded)) = (decoded, ours_decoded) {
                    let kept = original.insert(address, decoded);
                    let ours_kept = ours.insert(address, ours_decoded);
                    same && shown(Some(&kept)) == shown_ours(Some(&ours_kept))
                } else {
                    same
                }
            }
        };
        tally.expect(same, || format!("the typed cache at {address:#x}"));
    }
}
