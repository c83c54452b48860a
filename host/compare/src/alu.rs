//! The ALU: every kind that is kept, on edges crossed and on random operands of every magnitude; and the kinds that are refused.
use crate::{Plan, Tally};
use oracle::block::{self, AluKind};
use oracle::random::Random;
use unvriscol::door::{Answer, uv_alu};

/// The kinds that are kept, in the original's order with their numbers.
pub fn kept() -> impl Iterator<Item = AluKind> {
    use AluKind::*;
    [
        Add, Sub, Sll, Slt, Sltu, Xor, Srl, Sra, Or, And, Addw, Subw, Sllw, Srlw, Sraw, Andn, Orn,
        Xnor, Rol, Ror, Rolw, Rorw, Min, Max, Minu, Maxu, Clz, Ctz, Cpop, Clzw, Ctzw, Cpopw, SextB,
        SextH, ZextH, Rev8, OrcB, Sh1add, Sh2add, Sh3add, AddUw, Sh1addUw, Sh2addUw, Sh3addUw,
        SlliUw,
    ]
    .into_iter()
}

/// Each power of two with its neighbours, their complements, and bytes and words at their ends.
fn edges() -> Vec<u64> {
    let mut edges: Vec<u64> = (0..64)
        .map(|bit| 1u64 << bit)
        .chain([
            0x0100,
            0xFF00,
            0x00FF_00FF_00FF_00FF,
            0x8000_0000_8000_0000,
            0x0123_4567_89AB_CDEF,
        ])
        .flat_map(|n| [n, n - 1, n + 1])
        .flat_map(|n| [n, !n])
        .collect();
    edges.sort_unstable();
    edges.dedup();
    edges
}

#[inline(always)]
fn one(kind: AluKind, lhs: u64, rhs: u64, tally: &mut Tally) {
    let expected = Answer {
        number: 0,
        value: block::computed(kind, lhs, rhs),
    };
    let answer = uv_alu(kind as u64, lhs, rhs);
    tally.expect(answer == expected, || {
        format!("{kind:?} of {lhs:#x} and {rhs:#x}: the Rust gives {expected:x?}, ours {answer:x?}")
    });
}

pub fn run(plan: &Plan, tally: &mut Tally) {
    let edges = edges();
    for kind in kept() {
        for &lhs in &edges {
            for &rhs in &edges {
                one(kind, lhs, rhs, tally);
            }
        }
    }
    let mut random = Random::new(plan.seed, 3);
    for _ in 0..if plan.all { 10_000_000 } else { 2_500_000 } {
        let (lhs, rhs) = (random.wide(), random.wide());
        for kind in kept() {
            one(kind, lhs, rhs, tally);
        }
    }
    refusals(&mut random, tally);
}

/// Multiply and divide, the numbers behind the last kind, and numbers of every magnitude whose low bits may be a kind's.
fn refusals(random: &mut Random, tally: &mut Tally) {
    let refused = Answer {
        number: 7,
        value: 0,
    };
    let mut one = |kind: u64, lhs: u64, rhs: u64| {
        let answer = uv_alu(kind, lhs, rhs);
        tally.expect(answer == refused, || {
            format!("kind {kind:#x} of {lhs:#x} and {rhs:#x}: {answer:x?}")
        });
    };
    for _ in 0..1000 {
        let (lhs, rhs) = (random.wide(), random.wide());
        for kind in (15..28)
            .chain(58..1024)
            .chain((10..64).map(|bit| 1 << bit))
            .chain([u64::MAX])
        {
            one(kind, lhs, rhs);
        }
        for kind in 0..58 {
            one(kind | 1 << (6 + random.next() % 58), lhs, rhs);
        }
    }
}
