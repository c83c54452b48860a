//! Words and halfwords in each reading: the number, the record byte for byte, and the bytes before and behind it, which stay.
use crate::record::{self, LEN};
use crate::{Plan, Tally, manual};
use oracle::block::{self, Op};
use oracle::random::Random;
use unvriscol::Reading;
use unvriscol::door::{uv_decode_halfword, uv_decode_word};

/// A decode call on a lent buffer.
trait Call: Copy + std::fmt::LowerHex {
    const ILEN: u8;
    /// The original's answer, or the model's of the manual.
    fn expected(self, reading: Reading) -> Option<Op>;
    fn ours(self, reading: u64, lent: &mut [u8]) -> u64;
}

impl Call for u32 {
    const ILEN: u8 = 4;
    #[inline(always)]
    fn expected(self, reading: Reading) -> Option<Op> {
        match reading {
            Reading::Rust => (block::WORD)(self),
            Reading::Manual => manual::word(self),
        }
    }
    #[inline(always)]
    fn ours(self, reading: u64, lent: &mut [u8]) -> u64 {
        // SAFETY: pointer and length of one slice, lent for the call.
        unsafe { uv_decode_word(reading, self, lent.as_mut_ptr(), lent.len()) }
    }
}

impl Call for u16 {
    const ILEN: u8 = 2;
    #[inline(always)]
    fn expected(self, reading: Reading) -> Option<Op> {
        match reading {
            Reading::Rust => (block::HALFWORD)(self),
            Reading::Manual => manual::halfword(self),
        }
    }
    #[inline(always)]
    fn ours(self, reading: u64, lent: &mut [u8]) -> u64 {
        // SAFETY: pointer and length of one slice, lent for the call.
        unsafe { uv_decode_halfword(reading, self, lent.as_mut_ptr(), lent.len()) }
    }
}

/// What the lent bytes hold before a call, and those around them always.
const BEFORE: u8 = 0xA5;

#[inline(always)]
fn one<C: Call>(reading: Reading, raw: C, tally: &mut Tally) {
    let (number, inside) = match raw.expected(reading) {
        Some(op) => (0, record::of(op, C::ILEN)),
        None => (4, [BEFORE; LEN]),
    };
    let mut lent = [BEFORE; 3 * LEN];
    let answer = raw.ours(reading.number(), &mut lent[LEN..2 * LEN]);
    let around = lent[..LEN] == [BEFORE; LEN] && lent[2 * LEN..] == [BEFORE; LEN];
    let same = answer == number && lent[LEN..2 * LEN] == inside && around;
    tally.expect(same, || {
        format!(
            "{raw:#x} in {reading:?}: {number} {inside:x?} is expected, ours {answer} {lent:x?}"
        )
    });
}

/// Every halfword; of the manual's reading also how many part from the Rust's.
fn halfwords(reading: Reading, tally: &mut Tally) {
    let mut parted = 0;
    for raw in 0..=u16::MAX {
        one(reading, raw, tally);
        parted += u64::from(manual::parts_halfword(raw));
    }
    tally.expect(parted == manual::HALFWORDS, || {
        format!("the entries cover {parted} halfwords")
    });
}

/// Every word; without `--all` one of eight, the place within the eight drawn anew each time.
fn words(reading: Reading, plan: &Plan, tally: &mut Tally) {
    if plan.all {
        let mut parted = 0;
        for raw in 0..=u32::MAX {
            one(reading, raw, tally);
            parted += u64::from(manual::parts_word(raw));
        }
        tally.expect(parted == manual::WORDS, || {
            format!("the entries cover {parted} words")
        });
    } else {
        let mut random = Random::new(plan.seed, 1);
        for eight in 0..1u32 << 29 {
            one(reading, eight * 8 + (random.next() % 8) as u32, tally);
        }
    }
}

pub fn rust_halfwords(_: &Plan, tally: &mut Tally) {
    halfwords(Reading::Rust, tally);
}

pub fn manual_halfwords(_: &Plan, tally: &mut Tally) {
    halfwords(Reading::Manual, tally);
}

pub fn rust_words(plan: &Plan, tally: &mut Tally) {
    words(Reading::Rust, plan, tally);
}

pub fn manual_words(plan: &Plan, tally: &mut Tally) {
    words(Reading::Manual, plan, tally);
    let mut random = Random::new(plan.seed, 3);
    for _ in 0..1_000_000 {
        one(Reading::Manual, manual::some_word(&mut random), tally);
    }
}

/// Numbers that are no reading.
pub const NO_READING: [u64; 7] = [2, 3, 255, 256, 1 << 32, 1 << 63, u64::MAX];

/// Records of other lengths than sixteen: 6 whatever the encoding; a reading that is none: 2 whatever the rest. No byte changes.
pub fn refusals(plan: &Plan, tally: &mut Tally) {
    let mut random = Random::new(plan.seed, 2);
    for len in (0..64).chain([255, 256, 1039, 1040, 4096]) {
        let mut lent = vec![BEFORE; len];
        for _ in 0..1000 {
            let raw = random.next() as u32;
            let none = [random.wide().max(2), NO_READING[random.below(7) as usize]];
            let readings = Reading::ALL.map(Reading::number).into_iter().chain(none);
            for reading in readings.filter(|&reading| reading > 1 || len != LEN) {
                let number = if reading > 1 { 2 } else { 6 };
                // Low bits 11, so that a good part of them has an op.
                let answers = [
                    (raw | 3).ours(reading, &mut lent),
                    (raw as u16).ours(reading, &mut lent),
                ];
                let same = answers == [number; 2] && lent.iter().all(|&byte| byte == BEFORE);
                tally.expect(same, || {
                    format!("reading {reading}, length {len}: {answers:?} {lent:x?}")
                });
            }
        }
    }
}
